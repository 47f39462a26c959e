//! How much memory both sides take at most to decode the same bytes. `bench/run --memory` builds and calls it.
//!
//! Each row is called with no turn: it decodes its list, and writes that to the room.
mod calls;
mod memory;
#[allow(dead_code)]
mod trial;
mod values;

use memory::most;
use std::process::ExitCode;
use trial::{Case, ROWS, Trial, case};
use values::Kind;

/// The rows that are called: their names, what their values are, and how many.
const LISTS: &[(&str, Case, usize)] = &[
    ("v u32", case("mixed", Kind::Mixed, 1), 1_000_000),
    ("f u32", case("mixed", Kind::Mixed, 1), 1_000_000),
    ("v u64", case("mixed", Kind::Mixed, 1), 1_000_000),
    ("f u64", case("mixed", Kind::Mixed, 1), 1_000_000),
    ("v pairs", case("100000", Kind::Mixed, 100_000), 1),
    ("f pairs", case("100000", Kind::Mixed, 100_000), 1),
    ("v map", case("100000", Kind::Mixed, 100_000), 1),
    ("v hashed", case("100000", Kind::Mixed, 100_000), 1),
    ("v text", case("1000000", Kind::Mixed, 1_000_000), 1),
];

fn main() -> ExitCode {
    println!(
        "{:<20} {:>10} {:>12} {:>12} {:>6}  blocks",
        "row", "values", "original", "port", "ratio"
    );
    for (name, case, values) in LISTS {
        let is_asked = |row: &&trial::Row| {
            row.way == "read" && format!("{} {}", row.configuration, row.shape) == *name
        };
        let Some(row) = ROWS.iter().find(is_asked) else {
            continue;
        };
        let mut trial = Trial::new(row, case, *values);
        let sides = [0, 1].map(|side| {
            most(|| {
                trial.call(side, 0);
            })
        });
        let counts = [0, 1].map(|side| trial.call(side, 0).1);
        let same = (row.same)(&trial.rooms[0][..counts[0]], &trial.rooms[1][..counts[1]]);
        if counts[0] == 0 || counts[0] != counts[1] || !same {
            println!("DIFFERENT: {name}");
            return ExitCode::FAILURE;
        }
        let [(original, given), (port, asked)] = sides;
        println!(
            "read {name:<15} {:>10} {original:>12} {port:>12} {:>6.3}  {given} {asked}",
            values * case.items,
            port as f64 / original as f64
        );
    }
    ExitCode::SUCCESS
}
