//! `bench FILE.svg`: prints the tables of docs/PERFORMANCE.md and draws the plot.
//! `bench BEFORE NOW [TABLE..]`: the same tables, and more, of two revisions in the folders that
//! bench/run makes; all of them, or those that are named.
mod above;
mod answers;
mod arena;
mod audits;
mod by_size;
mod bytes;
mod calls;
mod comparisons;
mod descents;
mod difference;
mod difference_steps;
mod history;
mod options;
mod pair;
mod pairs;
mod plot;
mod program;
mod ranges;
mod revision;
mod shown;
mod soundness;
mod steps;
mod timing;

use by_size::{Row, SIZES, TABLES};
use revision::Revision;
use std::process::ExitCode;

#[global_allocator]
static ALLOCATOR: bytes::Counting = bytes::Counting;

/// How often everything is measured: the least times are taken, so that a while of other work on the machine does not show.
const PASSES: usize = 4;

/// The same for two revisions, where a pass is longer.
const PASSES_OF_TWO: usize = 2;

type Section = (&'static str, fn(&[Revision]));

/// What is printed of two revisions, by the names that can be asked for. The bytes come first: how
/// many rpds takes of the heap depends on what was done with it before.
const SECTIONS: [Section; 8] = [
    ("bytes", bytes_table),
    ("soundness", soundness_of_two),
    ("compare", comparisons::table),
    ("steps", steps::table),
    ("list", program::table),
    ("differences", differences_of_two),
    ("get", descents::tables),
    ("calls", calls_of_two),
];

/// One name for the tables of the times for which requests set an aim.
const AIMS: (&str, [&str; 4]) = ("aims", ["soundness", "compare", "steps", "list"]);

fn main() -> ExitCode {
    let words: Vec<String> = std::env::args().skip(1).collect();
    match &words[..] {
        [file] => tables(file),
        [before, now, named @ ..] if named.iter().all(|name| is_known(name)) => {
            // SAFETY: bench/run names the two folders that it made.
            let revisions = unsafe { [Revision::open("before", before), Revision::open("now", now)] };
            let sections = SECTIONS.iter().filter(|(name, _)| is_asked_for(name, named));
            sections.for_each(|(_, print)| print(&revisions));
            ExitCode::SUCCESS
        }
        _ => {
            let names = SECTIONS.map(|(name, _)| name).join(", ");
            eprintln!("usage: bench FILE.svg, or bench BEFORE NOW [TABLE..], a TABLE being {names}, or {}", AIMS.0);
            ExitCode::FAILURE
        }
    }
}

fn is_known(name: &str) -> bool {
    name == AIMS.0 || SECTIONS.iter().any(|section| section.0 == name)
}

/// Without names, every section is.
fn is_asked_for(section: &str, named: &[String]) -> bool {
    let covers = |name: &String| name == section || name == AIMS.0 && AIMS.1.contains(&section);
    named.is_empty() || named.iter().any(covers)
}

/// All tables of the library that is linked, and the plot in the file.
fn tables(file: &str) -> ExitCode {
    let revisions = [Revision::linked()];
    println!("## The soundness test\n");
    soundness::table(&revisions, &mut soundness::planted(), soundness::Run::Long, PASSES);
    bytes_table(&revisions);
    let tables = by_size::tables(&revisions, PASSES);
    let named: Vec<(&str, &Vec<Row>)> = TABLES.iter().map(|table| table.name).zip(&tables).collect();
    match std::fs::write(file, plot::draw(&SIZES, &named)) {
        Ok(()) => ExitCode::SUCCESS,
        Err(error) => {
            eprintln!("{file}: {error}");
            ExitCode::FAILURE
        }
    }
}

fn soundness_of_two(revisions: &[Revision]) {
    for run in [soundness::Run::Long, soundness::Run::Short] {
        println!("\n## The soundness test after random edits, {} in a row\n", run as usize);
        soundness::table(revisions, &mut soundness::after_histories(revisions), run, PASSES);
        println!("\n## On planted arenas, the nodes in the order of the keys, {} in a row\n", run as usize);
        soundness::table(revisions, &mut soundness::planted(), run, PASSES);
    }
}

/// A revision may lack the difference step: its times are left out then.
fn differences_of_two(revisions: &[Revision]) {
    let mut pairs = pairs::checked(revisions);
    difference_steps::table(revisions, &pairs);
    audits::table(revisions, &mut pairs);
}

fn bytes_table(revisions: &[Revision]) {
    println!("\n## Bytes\n");
    bytes::table(revisions, &SIZES);
}

fn calls_of_two(revisions: &[Revision]) {
    by_size::tables(revisions, PASSES_OF_TWO);
}
