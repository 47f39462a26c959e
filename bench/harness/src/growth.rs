//! How time and memory grow with the number of items, on both sides. `bench/run --growth` builds and calls it.
//!
//! A line for each row and number of items: the time for an item in nanoseconds, and the most bytes that are held at once while the
//! values are read, for an item.
mod calls;
mod memory;
#[allow(dead_code)]
mod trial;
mod values;

use memory::most;
use std::process::ExitCode;
use trial::{Case, ROWS, Row, Trial, case};
use values::Kind;

/// The numbers of items; under the limit of the rows, 64 MiB, the last one is too many.
const COUNTS: &[Case] = &[
    case("10", Kind::Mixed, 10),
    case("1000", Kind::Mixed, 1000),
    case("100000", Kind::Mixed, 100_000),
    case("1000000", Kind::Mixed, 1_000_000),
    case("10000000", Kind::Mixed, 10_000_000),
];

/// How many items all values of a trial have together, unless one has more.
const ITEMS: usize = 10_000;

/// How long the turns of a call take at least, in nanoseconds.
const CALL: f64 = 20_000_000.0;

/// How many calls of each side are timed: of a million items and more, which take up to seconds, two.
fn calls(trial: &Trial) -> usize {
    if trial.case.items < 1_000_000 { 5 } else { 2 }
}

/// Whether a row is one of those that grow: lists of numbers, texts, maps and records.
fn grows(row: &Row) -> bool {
    ["list_u32", "text", "map", "pairs"].contains(&row.shape) && ["write", "read"].contains(&row.way)
}

/// The time of a call, for an item.
fn time(trial: &mut Trial, side: usize, turns: usize) -> f64 {
    let calls = calls(trial);
    let begun = (0..calls).map(|_| trial.call(side, 0).0).fold(f64::MAX, f64::min);
    let whole = (0..calls).map(|_| trial.call(side, turns).0).fold(f64::MAX, f64::min);
    (whole - begun).max(0.0) / turns as f64 / (trial.values * trial.case.items) as f64
}

/// How many turns take long enough on the original's side.
fn turns(trial: &mut Trial) -> usize {
    let begun = trial.call(0, 0).0;
    let mut turns = 1;
    while trial.call(0, turns).0 < begun + CALL {
        turns *= 2;
    }
    turns
}

/// Times and counts one trial, if both sides answer the same, or tells that they take too much for the limit.
fn print(trial: &mut Trial) -> bool {
    let counts = [0, 1].map(|side| trial.call(side, 1).1);
    if counts == [0, 0] {
        return trial.row.configuration == "vl";
    }
    if counts[0] != counts[1] || !(trial.row.same)(&trial.rooms[0][..counts[0]], &trial.rooms[1][..counts[1]]) {
        return false;
    }
    let turns = turns(trial);
    let [original, port] = [0, 1].map(|side| time(trial, side, turns));
    let items = (trial.values * trial.case.items) as f64;
    let bytes = [0, 1].map(|side| {
        let (held, _) = most(|| {
            trial.call(side, 0);
        });
        held as f64 / items
    });
    println!(
        "{:<32} {:>9.2} {:>9.2} {:>6.2} {:>9.2} {:>9.2}",
        trial.name(),
        original,
        port,
        port / original,
        bytes[0],
        bytes[1]
    );
    true
}

fn main() -> ExitCode {
    println!(
        "{:<32} {:>9} {:>9} {:>6} {:>9} {:>9}",
        "call, configuration, type, items", "original", "port", "ratio", "bytes", "bytes"
    );
    for row in ROWS.iter().filter(|row| grows(row)) {
        for case in COUNTS {
            let values = (ITEMS / case.items).max(1);
            if !print(&mut Trial::new(row, case, values)) {
                println!("DIFFERENT: {} {} {} {}", row.way, row.configuration, row.shape, case.name);
                return ExitCode::FAILURE;
            }
        }
    }
    ExitCode::SUCCESS
}
