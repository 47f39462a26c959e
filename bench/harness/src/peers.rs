//! The same values in other formats: how many bytes they take, and how long it takes to write them to vectors and to read them
//! again. `bench/run --peers FOLDER` builds and calls it.
mod calls;
#[allow(dead_code)]
mod trial;
mod values;

use bincode::{Decode, config};
use serde::{Serialize, de::DeserializeOwned};
use std::collections::BTreeMap;
use std::hint::black_box;
use std::process::ExitCode;
use std::time::Instant;
use trial::{Case, ROWS, Row, Trial, case};
use values::Kind;

/// How many items all values of a row have together.
const ITEMS: usize = 100_000;

/// How many times all values are written and read; the least time counts.
const TURNS: usize = 40;

/// What a format takes for an item: bytes, and nanoseconds to write and to read it.
struct Taken {
    bytes: f64,
    written: f64,
    read: f64,
}

/// The least time of some turns, in nanoseconds.
fn least(mut turn: impl FnMut()) -> f64 {
    let times = (0..TURNS).map(|_| {
        let start = Instant::now();
        turn();
        start.elapsed().as_nanos() as f64
    });
    times.fold(f64::MAX, f64::min)
}

/// A format by its two calls, over these values: none if what is read differs.
fn taken<T: PartialEq>(
    values: &[T],
    items: f64,
    write: impl Fn(&T) -> Vec<u8>,
    read: impl Fn(&[u8]) -> T,
) -> Option<Taken> {
    let words: Vec<Vec<u8>> = values.iter().map(&write).collect();
    if words.iter().zip(values).any(|(word, value)| read(word) != *value) {
        return None;
    }
    let written = least(|| {
        for value in values {
            black_box(write(black_box(value)));
        }
    });
    let read = least(|| {
        for word in &words {
            black_box(read(black_box(word)));
        }
    });
    let bytes: usize = words.iter().map(Vec::len).sum();
    Some(Taken {
        bytes: bytes as f64 / items,
        written: written / items,
        read: read / items,
    })
}

/// How many turns of a row a call makes: so what it takes before its first turn counts little.
const TURNS_A_CALL: usize = 10;

/// The time of a row of one side, for an item.
fn row_time(trial: &mut Trial, side: usize) -> f64 {
    let begun = (0..TURNS).map(|_| trial.call(side, 0).0).fold(f64::MAX, f64::min);
    let whole = (0..TURNS).map(|_| trial.call(side, TURNS_A_CALL).0).fold(f64::MAX, f64::min);
    (whole - begun) / (TURNS_A_CALL * trial.values * trial.case.items) as f64
}

/// The row of this call and type, with this case.
fn trial_of(way: &str, shape: &str, case: &'static Case) -> Trial {
    let is_asked = |row: &&Row| row.way == way && row.shape == shape && row.configuration == "v";
    let row = ROWS.iter().find(is_asked).expect("the row is built");
    Trial::new(row, case, ITEMS / case.items)
}

fn print(shape: &str, case: &Case, format: &str, taken: &Taken) {
    let Taken { bytes, written, read } = taken;
    println!("{shape:<10} {:>6} {format:<18} {bytes:>8.2} {written:>9.2} {read:>9.2}", case.name);
}

/// All formats over the values of one row. Returns whether each gives its values back.
fn compare<T: Decode<()> + Serialize + DeserializeOwned + PartialEq>(shape: &str, case: &'static Case) -> bool {
    let mut reading = trial_of("read", shape, case);
    let mut writing = trial_of("vector", shape, case);
    let (values, _): (Vec<T>, usize) = bincode::decode_from_slice(&reading.input, config::standard()).expect("values");
    let items = (reading.values * case.items) as f64;
    for (side, name) in [(1, "this library"), (0, "bincode 2.0.1")] {
        let taken = Taken {
            bytes: (reading.input.len() as f64 - 3.0) / items,
            written: row_time(&mut writing, side),
            read: row_time(&mut reading, side),
        };
        print(shape, case, name, &taken);
    }
    let others = [
        (
            "bincode 1.3",
            taken(
                &values,
                items,
                |value| bincode1::serialize(value).expect("written"),
                |word| bincode1::deserialize(word).expect("read"),
            ),
        ),
        (
            "rmp-serde 1.1",
            taken(
                &values,
                items,
                |value| rmp_serde::to_vec(value).expect("written"),
                |word| rmp_serde::from_slice(word).expect("read"),
            ),
        ),
    ];
    others.iter().all(|(name, taken)| {
        if let Some(taken) = taken {
            print(shape, case, name, taken);
        }
        taken.is_some()
    })
}

const FEW: &Case = &case("16", Kind::Mixed, 16);
const MANY: &Case = &case("1000", Kind::Mixed, 1000);

fn main() -> ExitCode {
    println!("{:<10} {:>6} {:<18} {:>8} {:>9} {:>9}", "type", "items", "format", "bytes", "written", "read");
    let mut are_same = true;
    for case in [FEW, MANY] {
        are_same &= compare::<Vec<u32>>("list_u32", case);
        are_same &= compare::<Vec<u64>>("list_u64", case);
        are_same &= compare::<String>("text", case);
        are_same &= compare::<BTreeMap<u32, u64>>("map", case);
        are_same &= compare::<Vec<(u32, String)>>("pairs", case);
        are_same &= compare::<Vec<Vec<u16>>>("lists", case);
    }
    if !are_same {
        println!("DIFFERENT: a format does not give a value back");
        return ExitCode::FAILURE;
    }
    ExitCode::SUCCESS
}
