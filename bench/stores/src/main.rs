//! What the program `records` of the repository does, over the original crate:
//!
//!     stores add [--unchecked] FILE NAME PRICE [WEIGHT] [NOTE=TEXT ..]
//!     stores add [--unchecked] FILE -
//!     stores list FILE ..
//!     stores check FILE ..
//!
//! Each article is decoded once more before it is written, unless `--unchecked` is given.
mod article;
mod files;
mod frames;
mod showing;

use article::Article;
use frames::{Ending, put_frame, step_over};
use showing::print_store;
use std::env;
use std::error::Error;
use std::fs::File;
use std::io::{self, BufRead, BufReader, BufWriter, Read, Write};
use std::process::ExitCode;

/// The number of bytes that a file is read and written by.
const BLOCK: usize = 1 << 16;

/// The greatest number of bytes of a line.
const LONGEST_LINE: u64 = 1 << 20;

const DONE: u8 = 0;
const DAMAGED: u8 = 1;
const USAGE: u8 = 2;
const FAILED: u8 = 3;

type Outcome = Result<u8, Box<dyn Error>>;

fn main() -> ExitCode {
    let words: Vec<String> = env::args().skip(1).collect();
    let words: Vec<&str> = words.iter().map(String::as_str).collect();
    ExitCode::from(match words[..] {
        ["add", "--unchecked", file, ref article @ ..] if !article.is_empty() => {
            told(file, add(file, article, false))
        }
        ["add", file, ref article @ ..] if !article.is_empty() => {
            told(file, add(file, article, true))
        }
        ["list", ref files @ ..] if !files.is_empty() => show_each(files, true),
        ["check", ref files @ ..] if !files.is_empty() => show_each(files, false),
        _ => {
            eprintln!(
                "usage: stores (add [--unchecked] FILE (- | WORD ..) | list FILE .. | check FILE ..)"
            );
            USAGE
        }
    })
}

/// The status of what was done with a file. An error is printed.
fn told(file: &str, outcome: Outcome) -> u8 {
    outcome.unwrap_or_else(|error| {
        eprintln!("records: {file}: {error}");
        FAILED
    })
}

/// Appends an article, or those of the standard input, and says so once they are on the disk. Where that fails, the
/// file is cut back to what it held.
fn add(path: &str, words: &[&str], reads_back: bool) -> Outcome {
    let file = files::open_to_change(path)?;
    let (offset, ending) = step_over(&mut BufReader::with_capacity(BLOCK, &file))?;
    let why = match ending {
        Ending::Whole => return add_at(path, &file, offset, words, reads_back),
        Ending::Torn => format!("truncated at byte {offset}"),
        Ending::TooLong(length) => format!("no frame at byte {offset}, of a length of {length}"),
    };
    eprintln!("records: {path}: {why}: nothing was added. `records repair` makes the file whole");
    Ok(DAMAGED)
}

/// `add` to a file whose frames end at that offset.
fn add_at(path: &str, file: &File, offset: u64, words: &[&str], reads_back: bool) -> Outcome {
    let mut store = BufWriter::with_capacity(BLOCK, file);
    let added = match words {
        ["-"] => add_lines(&mut io::stdin().lock(), &mut store, reads_back)
            .map(|count| format!("{count} records added")),
        _ => add_one(&mut store, words, reads_back).map(|size| format!("{size} bytes")),
    };
    match added.and_then(|added| Ok(store.flush().map(|()| added)?)) {
        Ok(added) => {
            file.sync_all()?;
            println!("{path}: {added} at byte {offset}");
            Ok(DONE)
        }
        Err(error) => {
            // what is left in the buffer is not written when it is dropped
            drop(store.into_parts());
            file.set_len(offset)?;
            file.sync_all()?;
            Err(error)
        }
    }
}

/// Appends an article, and returns the number of bytes of its frame.
fn add_one(
    store: &mut impl Write,
    words: &[&str],
    reads_back: bool,
) -> Result<usize, Box<dyn Error>> {
    let mut frame = Vec::new();
    put_frame(
        &mut frame,
        &Article::of_words(words.iter().copied())?,
        reads_back,
    )?;
    store.write_all(&frame)?;
    Ok(frame.len())
}

/// Appends the articles of an input, one a line, and returns how many they are. Blank lines are passed over.
fn add_lines(
    input: &mut impl BufRead,
    store: &mut impl Write,
    reads_back: bool,
) -> Result<usize, Box<dyn Error>> {
    let mut line = String::new();
    let mut frame = Vec::new();
    let mut added = 0;
    for number in 1.. {
        line.clear();
        let count = input
            .take(LONGEST_LINE)
            .read_line(&mut line)
            .map_err(|why| at_line(number, &why))?;
        if count == 0 {
            break;
        }
        if count as u64 == LONGEST_LINE {
            return Err(at_line(
                number,
                &format_args!("a line of more than {LONGEST_LINE} bytes"),
            ));
        }
        let mut words = line.split_ascii_whitespace().peekable();
        if words.peek().is_some() {
            let article = Article::of_words(words).map_err(|why| at_line(number, &why))?;
            put_frame(&mut frame, &article, reads_back)?;
            store.write_all(&frame)?;
            added += 1;
        }
    }
    Ok(added)
}

/// The error of a line of the standard input.
fn at_line(number: usize, why: &dyn std::fmt::Display) -> Box<dyn Error> {
    format!("the standard input, line {number}: {why}").into()
}

/// Prints what is asked for of each file. The status is the greatest of them.
fn show_each(files: &[&str], lists: bool) -> u8 {
    files
        .iter()
        .map(|file| told(file, show(file, lists)))
        .max()
        .unwrap_or(DONE)
}

/// Prints what is asked for of a file.
fn show(path: &str, lists: bool) -> Outcome {
    let mut store = BufReader::with_capacity(BLOCK, files::open_to_read(path)?);
    let mut out = BufWriter::with_capacity(BLOCK, io::stdout().lock());
    let is_whole = print_store(&mut out, path, lists, &mut store)?;
    out.flush()?;
    Ok(if is_whole { DONE } else { DAMAGED })
}
