//! Runs a fixed script of calls on rpds's own map. `list` prints each call with rpds's answer, one a line;
//! `list expected` what the program `replay` must write of that list; `list counts` how many calls of each kind it has.
#![forbid(unsafe_code)]

mod book;
mod differences;
mod histories;
mod line;
mod script;
mod tags;
mod walks;

use book::Book;
use common::quiet;
use std::collections::BTreeMap;
use std::process::ExitCode;

fn main() -> ExitCode {
    let words: Vec<String> = std::env::args().skip(1).collect();
    quiet::install();
    let mut book = Book::default();
    script::run(&mut book);
    match words.iter().map(String::as_str).collect::<Vec<_>>()[..] {
        [] => print_list(book),
        ["expected"] => println!("{} calls\n0 differences", book.lines.len()),
        ["counts"] => print_counts(&book),
        _ => {
            eprintln!("usage: list [expected | counts]");
            return ExitCode::FAILURE;
        }
    }
    ExitCode::SUCCESS
}

fn print_list(mut book: Book) {
    book.finish();
    book.lines.iter().for_each(|line| println!("{line}"));
}

/// By kind and status, which is 0 or the refusal.
fn print_counts(book: &Book) {
    let mut counts = BTreeMap::new();
    for line in &book.lines {
        *counts.entry((line.call, line.status())).or_insert(0) += 1;
    }
    for ((call, status), count) in counts {
        println!("{call:?} {status}: {count}");
    }
}
