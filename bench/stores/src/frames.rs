//! Frames around articles, as docs/STORES.md has them: a length, the word, and a check over both.
use crate::article::{Article, settings};
use std::error::Error;
use std::io::{self, BufRead, ErrorKind, Read};

/// The length in bytes of the longest word that a store takes.
const LONGEST_WORD: usize = 65526;

/// The number of bytes of a length, and of a check.
const FIELD: usize = 4;

/// What eight steps of CRC-32C make of each byte.
static TABLE: [u32; 256] = table();

const fn table() -> [u32; 256] {
    let mut table = [0; 256];
    let mut byte = 0;
    while byte < 256 {
        let mut entry = byte as u32;
        let mut bit = 0;
        while bit < 8 {
            entry = (entry >> 1) ^ if entry & 1 == 1 { 0x82F6_3B78 } else { 0 };
            bit += 1;
        }
        table[byte] = entry;
        byte += 1;
    }
    table
}

fn crc32c(bytes: &[u8]) -> u32 {
    let state = bytes.iter().fold(u32::MAX, |state, byte| {
        TABLE[(state as u8 ^ byte) as usize] ^ (state >> 8)
    });
    !state
}

/// How a store ends.
pub enum Ending {
    /// After a frame, or empty.
    Whole,
    /// Within a frame.
    Torn,
    /// Before a length above what a store takes.
    TooLong(u32),
}

/// What stands where a frame is to begin.
pub enum Frame<'a> {
    /// A frame of this number of bytes whose check fits, and its word.
    Whole(&'a [u8], usize),
    /// A frame of this number of bytes whose check does not fit.
    Damaged(usize),
    /// No frame.
    None(Ending),
}

/// Puts the frame of an article in the place of what `frame` holds. The word is decoded once more, if that is asked
/// for. Fails if it is longer than a store takes, or cannot be decoded within the limit.
pub fn put_frame(
    frame: &mut Vec<u8>,
    article: &Article,
    reads_back: bool,
) -> Result<(), Box<dyn Error>> {
    frame.clear();
    frame.extend_from_slice(&[0; FIELD]);
    bincode::encode_into_std_write(article, frame, settings())?;
    let length = frame.len() - FIELD;
    if length > LONGEST_WORD {
        return Err(
            format!("its encoding has {length} bytes, and the store takes {LONGEST_WORD}").into(),
        );
    }
    if reads_back {
        bincode::decode_from_slice::<Article, _>(&frame[FIELD..], settings())
            .map_err(|why| format!("it cannot be read back: {why}"))?;
    }
    frame[..FIELD].copy_from_slice(&(length as u32).to_le_bytes());
    let check = crc32c(frame);
    frame.extend_from_slice(&check.to_le_bytes());
    Ok(())
}

/// Reads a frame into `buffer`, in place of what it held.
pub fn read_frame<'a>(store: &mut impl BufRead, buffer: &'a mut Vec<u8>) -> io::Result<Frame<'a>> {
    let length = match read_length(store)? {
        Ok(length) => length,
        Err(ending) => return Ok(Frame::None(ending)),
    };
    let size = FIELD + length + FIELD;
    buffer.resize(size, 0);
    buffer[..FIELD].copy_from_slice(&(length as u32).to_le_bytes());
    if !is_filled(store, &mut buffer[FIELD..])? {
        return Ok(Frame::None(Ending::Torn));
    }
    let (checked, check) = buffer.split_at(FIELD + length);
    if crc32c(checked).to_le_bytes() != check {
        return Ok(Frame::Damaged(size));
    }
    Ok(Frame::Whole(&checked[FIELD..], size))
}

/// Steps over the frames of a store by their lengths. Returns how many bytes they have, and how the store ends.
pub fn step_over(store: &mut impl BufRead) -> io::Result<(u64, Ending)> {
    let mut offset = 0;
    loop {
        let rest = match read_length(store)? {
            Ok(length) => length + FIELD,
            Err(ending) => return Ok((offset, ending)),
        };
        if skip(store, rest)? < rest {
            return Ok((offset, Ending::Torn));
        }
        offset += (FIELD + rest) as u64;
    }
}

/// The length of the next word, or why there is none.
fn read_length(store: &mut impl BufRead) -> io::Result<Result<usize, Ending>> {
    if store.fill_buf()?.is_empty() {
        return Ok(Err(Ending::Whole));
    }
    let mut field = [0; FIELD];
    if !is_filled(store, &mut field)? {
        return Ok(Err(Ending::Torn));
    }
    let length = u32::from_le_bytes(field);
    Ok(if length as usize > LONGEST_WORD {
        Err(Ending::TooLong(length))
    } else {
        Ok(length as usize)
    })
}

/// Fills bytes from a store. Returns whether there were enough.
fn is_filled(store: &mut impl Read, bytes: &mut [u8]) -> io::Result<bool> {
    match store.read_exact(bytes) {
        Ok(()) => Ok(true),
        Err(error) if error.kind() == ErrorKind::UnexpectedEof => Ok(false),
        Err(error) => Err(error),
    }
}

/// Drops this number of bytes of a store, or all that are left. Returns how many.
fn skip(store: &mut impl BufRead, count: usize) -> io::Result<usize> {
    let mut skipped = 0;
    while skipped < count {
        let there = store.fill_buf()?.len().min(count - skipped);
        if there == 0 {
            break;
        }
        store.consume(there);
        skipped += there;
    }
    Ok(skipped)
}
