//! The rows, of both sides, and one call of them.
use crate::calls;
use crate::values::{Kind, bytes_of, same_bytes, same_maps};
use std::collections::{BTreeMap, HashMap};
use std::hint::black_box;
use std::ops::Bound;
use std::time::Instant;

/// One of the values of a row: their kind, and how many items each has.
pub struct Case {
    pub name: &'static str,
    pub kind: Kind,
    pub items: usize,
}

pub const fn case(name: &'static str, kind: Kind, items: usize) -> Case {
    Case { name, kind, items }
}

const ONE_CASE: &[Case] = &[case("mixed", Kind::Mixed, 1)];
const KINDS: &[Case] = &[
    case("one byte", Kind::OneByte, 1),
    case("two bytes", Kind::TwoBytes, 1),
    case("wide", Kind::Wide, 1),
    case("mixed", Kind::Mixed, 1),
];
const COUNTS: &[Case] = &[
    case("1", Kind::Mixed, 1),
    case("16", Kind::Mixed, 16),
    case("1000", Kind::Mixed, 1000),
    case("100000", Kind::Mixed, 100_000),
];

/// A loop around one call: it answers how many bytes it left in the room.
type Original = fn(calls::Global, &[u8], &mut [u8], usize) -> usize;
type Port = unsafe extern "C" fn(*const u8, usize, *mut u8, usize, usize) -> usize;

pub struct Row {
    pub way: &'static str,
    pub configuration: &'static str,
    pub shape: &'static str,
    pub cases: &'static [Case],
    bytes: fn(Kind, usize, usize) -> Vec<u8>,
    pub same: fn(&[u8], &[u8]) -> bool,
    original: Original,
    port: Port,
}

include!(concat!(env!("BENCH_WORK"), "/rows.rs"));

/// One row with one of its cases, and the room of both sides.
pub struct Trial {
    pub row: &'static Row,
    pub case: &'static Case,
    pub values: usize,
    pub input: Vec<u8>,
    pub rooms: [Vec<u8>; 2],
}

impl Trial {
    pub fn new(row: &'static Row, case: &'static Case, values: usize) -> Trial {
        let input = (row.bytes)(case.kind, values, case.items);
        let room = vec![0; 2 * input.len() + 64];
        Trial {
            row,
            case,
            values,
            input,
            rooms: [room.clone(), room],
        }
    }

    pub fn name(&self) -> String {
        format!(
            "{} {} {} {}",
            self.row.way, self.row.configuration, self.row.shape, self.case.name
        )
    }

    /// Calls the original (0) or the port (1), and answers how long it took, with its answer.
    pub fn call(&mut self, side: usize, turns: usize) -> (f64, usize) {
        let (input, room) = (
            black_box(&self.input[..]),
            black_box(&mut self.rooms[side][..]),
        );
        let start = Instant::now();
        let answer = if side == 0 {
            (self.row.original)(calls::Global, input, room, turns)
        } else {
            // SAFETY: both are slices, and the function keeps neither.
            unsafe {
                (self.row.port)(
                    input.as_ptr(),
                    input.len(),
                    room.as_mut_ptr(),
                    room.len(),
                    turns,
                )
            }
        };
        (start.elapsed().as_nanos() as f64, black_box(answer))
    }
}
