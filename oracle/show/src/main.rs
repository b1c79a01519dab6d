//! Reads commands, one a line, and shows after each what rpds made of it:
//! `set K V`, `cut K`, and `back N`, which goes on from the version after the first N commands.
#![forbid(unsafe_code)]

mod antt;
mod plain;

use seen::{Map, Seen};
use std::io::{self, BufRead};
use std::process::ExitCode;
use steps::tree::Tree;

/// How a step is printed: the command, the tree before it with its nodes numbered, and the tree after it.
type Printer = fn(&str, &Tree, &Tree);

fn main() -> ExitCode {
    let words: Vec<String> = std::env::args().skip(1).collect();
    let print: Printer = match words.iter().map(String::as_str).collect::<Vec<_>>()[..] {
        [] => plain::print,
        ["--antt"] => antt::print,
        _ => return fail("usage: show [--antt]"),
    };
    // Every version stays held, so that no address is used twice.
    let mut versions = vec![Map::new()];
    for line in io::stdin().lock().lines() {
        let Ok(line) = line else {
            return fail("the input cannot be read");
        };
        let Some((parent, made)) = obey(&line, &versions) else {
            return fail(&format!("no such command: {line}"));
        };
        let (before, after) = trees(parent, &made);
        print(&line, &before, &after);
        versions.push(made);
    }
    ExitCode::SUCCESS
}

fn fail(message: &str) -> ExitCode {
    eprintln!("{message}");
    ExitCode::FAILURE
}

/// The version that a command starts from and the one that it makes, if it is a command.
fn obey<'a>(line: &str, versions: &'a [Map]) -> Option<(&'a Map, Map)> {
    let now = versions.last()?;
    let words: Vec<&str> = line.split_whitespace().collect();
    match words[..] {
        ["set", key, value] => Some((now, now.insert(key.parse().ok()?, value.parse().ok()?))),
        ["cut", key] => Some((now, now.remove(&key.parse::<u32>().ok()?))),
        ["back", count] => versions.get(count.parse::<usize>().ok()?).map(|old| (old, old.clone())),
        _ => None,
    }
}

/// Both as plain trees, with the nodes of the former numbered in listing order.
fn trees(before: &Map, after: &Map) -> (Tree, Tree) {
    let seen = Seen::of(before);
    let numbers = seen.numbers();
    (seen.tree(&numbers), Seen::of(after).tree(&numbers))
}
