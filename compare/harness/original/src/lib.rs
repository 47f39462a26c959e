//! The original's side: a function for each type, which makes the call of a number under the configuration of a number.
pub mod calls;
pub mod own;
pub mod pieces;

/// The functions, which compare/table.py writes.
pub mod table {
    include!(concat!(env!("BENCH_WORK"), "/table.rs"));
}
