//! Calls a program, and tells what it took: `measure FIGURES PROGRAM ARGUMENT ..` writes the nanoseconds of the clock,
//! the microseconds of a processor and the most KiB of memory to the file FIGURES, and ends with the program's status.
//!
//! Linux counts the memory of the caller to that of the program, if it has more. So the caller is this small program,
//! and not Python.
use std::error::Error;
use std::process::{Command, ExitCode};
use std::time::Instant;
use std::{env, fs};

#[repr(C)]
#[derive(Default)]
struct Time {
    seconds: i64,
    microseconds: i64,
}

/// What `getrusage` tells on Linux with 64 bits.
#[repr(C)]
#[derive(Default)]
struct Usage {
    user: Time,
    system: Time,
    most_kib: i64,
    others: [i64; 13],
}

/// The processes that ended and were waited for.
const CHILDREN: i32 = -1;

unsafe extern "C" {
    fn getrusage(who: i32, usage: *mut Usage) -> i32;
}

fn main() -> Result<ExitCode, Box<dyn Error>> {
    let mut words = env::args().skip(1);
    let (Some(figures), Some(program)) = (words.next(), words.next()) else {
        return Err("usage: measure FIGURES PROGRAM ARGUMENT ..".into());
    };
    let start = Instant::now();
    let status = Command::new(program).args(words).status()?;
    let taken = start.elapsed().as_nanos();
    let mut usage = Usage::default();
    // SAFETY: the structure is as large as that of the C library
    unsafe { getrusage(CHILDREN, &mut usage) };
    let seconds = usage.user.seconds + usage.system.seconds;
    let processor = seconds * 1_000_000 + usage.user.microseconds + usage.system.microseconds;
    fs::write(figures, format!("{taken} {processor} {}", usage.most_kib))?;
    Ok(ExitCode::from(
        status
            .code()
            .and_then(|code| u8::try_from(code).ok())
            .unwrap_or(255),
    ))
}
