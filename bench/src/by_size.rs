//! The tables of calls by the number of entries.
use crate::answers;
use crate::arena::{Arena, Plan, height};
use crate::calls::{CALLS, Measure, Times};
use crate::revision::Revision;

pub const SIZES: [usize; 4] = [16, 128, 1024, 2000];

/// A removal from 2,000 entries needs 122 free nodes, and 47 are left: its last size is 1,900.
const MOST_FOR_REMOVAL: usize = 1900;

/// A call's times by the sizes.
pub type Row = (&'static str, Vec<Times>);

/// What a table is of: its heading, its name in the plot, and its arenas by the number of entries.
pub struct Table {
    heading: &'static str,
    pub name: &'static str,
    plan: fn(usize) -> Plan,
}

pub const TABLES: [Table; 4] = [
    Table { heading: "N = 2,047 and V = 32, versions held: 1", name: "1 version", plan: |size| largest(size, 1) },
    Table { heading: "N = 2,047 and V = 32, versions held: 3", name: "3 versions", plan: |size| largest(size, 3) },
    Table { heading: "N = 2,047 and V = 32, versions held: 32", name: "32 versions", plan: |size| largest(size, 32) },
    Table { heading: "Arenas cut to size, V = 4, versions held: 3", name: "cut to size", plan: cut_to_size },
];

fn largest(entries: usize, versions: usize) -> Plan {
    Plan { n: 2047, v: 32, entries, versions }
}

/// With room for a removal and some versions.
fn cut_to_size(entries: usize) -> Plan {
    Plan { n: (entries + 6 * height(entries) + 60).min(2047) as u32, v: 4, entries, versions: 3 }
}

/// Every revision answers on every arena as rpds does.
fn check(revisions: &[Revision]) {
    for (table, size) in TABLES.iter().flat_map(|table| SIZES.map(|size| (table, size))) {
        revisions.iter().for_each(|revision| answers::check(revision, &mut Arena::new((table.plan)(size), 0)));
    }
}

/// Measures every table so often, prints it, and hands back its rows.
pub fn tables(revisions: &[Revision], passes: usize) -> Vec<Vec<Row>> {
    check(revisions);
    let mut tables: Vec<Vec<Row>> = TABLES.iter().map(|table| measure(revisions, table.plan)).collect();
    for _ in 1..passes {
        for (rows, table) in tables.iter_mut().zip(&TABLES) {
            let again = measure(revisions, table.plan);
            rows.iter_mut().zip(again).for_each(|(row, again)| keep_least(&mut row.1, &again.1));
        }
    }
    for (rows, table) in tables.iter().zip(&TABLES) {
        println!("\n## {}\n", table.heading);
        print(revisions, rows);
    }
    tables
}

/// Every call at every size.
fn measure(revisions: &[Revision], plan: fn(usize) -> Plan) -> Vec<Row> {
    let row = |(name, measure): &(&'static str, Measure)| {
        let most = if *name == "remove" { MOST_FOR_REMOVAL } else { usize::MAX };
        (*name, SIZES.iter().map(|size| measure(revisions, plan((*size).min(most)))).collect())
    };
    CALLS.iter().map(row).collect()
}

/// A call and its test are kept from one pass, as the one's share of the other is asked for.
fn keep_least(times: &mut [Times], again: &[Times]) {
    for (kept, other) in times.iter_mut().zip(again) {
        kept.rpds = kept.rpds.min(other.rpds);
        for (kept, other) in kept.ours.iter_mut().zip(&other.ours) {
            *kept = if other.call < kept.call { *other } else { *kept };
        }
    }
}

fn print(revisions: &[Revision], rows: &[Row]) {
    let names: Vec<String> = revisions.iter().map(|revision| format!("{} µs", revision.name)).collect();
    let heads = SIZES.map(|size| format!("{size}: {} | test % | rpds µs", names.join(" | ")));
    println!("| call | {} |", heads.join(" | "));
    println!("|---|{}", "---|".repeat((names.len() + 2) * SIZES.len()));
    for (name, times) in rows {
        let cells: Vec<String> = times.iter().map(cell).collect();
        println!("| {name} | {} |", cells.join(" | "));
    }
}

/// The share is that of the present revision.
fn cell(times: &Times) -> String {
    let micros = |nanos: f64| match nanos {
        nanos if nanos < 10.0 => format!("{:.4}", nanos / 1000.0),
        nanos if nanos < 1000.0 => format!("{:.3}", nanos / 1000.0),
        nanos if nanos < 1e5 => format!("{:.1}", nanos / 1000.0),
        nanos => format!("{:.0}", nanos / 1000.0),
    };
    let ours: Vec<String> = times.ours.iter().map(|ours| micros(ours.call)).collect();
    let share = 100.0 * times.now().test / times.now().call;
    format!("{} | {share:.0} | {}", ours.join(" | "), micros(times.rpds))
}
