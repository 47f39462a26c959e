//! Calls whose port's side is asked by another program: they are written to files with the original's answers, and that program tells which it
//! answers otherwise.
use crate::sides::{CALLS, CONFIGURATIONS, Call, Kind};
use std::collections::BTreeMap;
use std::fs;
use std::io;

/// How many calls a file has: `rt try` keeps a mebibyte of what the program prints of a file, a line for each call that it answers otherwise.
const IN_FILE: usize = 10_000;

/// Files of calls in a folder.
pub struct Files {
    folder: String,
    bytes: Vec<u8>,
    calls: usize,
    files: usize,
}

impl Files {
    pub fn new(folder: &str) -> Files {
        Files {
            folder: folder.to_string(),
            bytes: vec![],
            calls: 0,
            files: 0,
        }
    }

    /// Adds a call with the original's answer.
    pub fn add(&mut self, call: &Call<'_>, input: &[u8], answer: &[u8]) {
        let number = |number: usize| (number as u32).to_le_bytes();
        let way = 16 * call.call + call.configuration;
        self.bytes.extend(number(call.kind.place));
        self.bytes.extend(number(way));
        self.bytes.extend((call.numbers.0 as u64).to_le_bytes());
        self.bytes.extend((call.numbers.1 as u64).to_le_bytes());
        self.bytes.extend(number(input.len()));
        self.bytes.extend(number(answer.len()));
        self.bytes.extend(input);
        self.bytes.extend(answer);
        self.calls += 1;
        if self.calls == IN_FILE {
            self.end().expect("the folder of calls is there");
        }
    }

    /// Ends a file, if it has calls.
    pub fn end(&mut self) -> io::Result<()> {
        if self.calls > 0 {
            fs::write(format!("{}/{:04}", self.folder, self.files), &self.bytes)?;
            self.files += 1;
        }
        self.calls = 0;
        self.bytes.clear();
        Ok(())
    }
}

/// A call that was read from a file.
pub struct Asked<'k> {
    pub call: Call<'k>,
    pub input: Vec<u8>,
    pub answer: Vec<u8>,
}

/// The call that begins there.
pub fn asked_at<'k>(kinds: &'k [Kind], bytes: &[u8], at: usize) -> Option<Asked<'k>> {
    let number = |from: usize, width: usize| {
        let digits = bytes.get(at + from..at + from + width)?;
        Some(
            digits
                .iter()
                .rev()
                .fold(0, |sum: usize, byte| sum << 8 | *byte as usize),
        )
    };
    let way = number(4, 4)?;
    let (length, expected) = (number(24, 4)?, number(28, 4)?);
    let begin = at + 32;
    let (call, configuration) = (way / 16, way % 16);
    if call >= CALLS.len() || configuration >= CONFIGURATIONS.len() {
        return None;
    }
    Some(Asked {
        call: Call {
            kind: kinds.get(number(0, 4)?)?,
            call,
            configuration,
            numbers: (number(8, 8)?, number(16, 8)?),
        },
        input: bytes.get(begin..begin + length)?.to_vec(),
        answer: bytes
            .get(begin + length..begin + length + expected)?
            .to_vec(),
    })
}

/// How many calls a file has.
pub fn count_calls(kinds: &[Kind], bytes: &[u8]) -> u64 {
    let (mut at, mut count) = (0, 0);
    while let Some(asked) = asked_at(kinds, bytes, at) {
        at += 32 + asked.input.len() + asked.answer.len();
        count += 1;
    }
    count
}

fn bytes_of(hex: &str) -> Option<Vec<u8>> {
    let digits = hex
        .as_bytes()
        .chunks(2)
        .map(|digits| std::str::from_utf8(digits).ok());
    digits
        .map(|digits| u8::from_str_radix(digits?, 16).ok())
        .collect()
}

/// What the other program told: of each file the places of the calls that it answers otherwise, with its answers.
pub fn told(text: &str) -> BTreeMap<String, Vec<(usize, Vec<u8>)>> {
    let mut told: BTreeMap<String, Vec<_>> = BTreeMap::new();
    let mut file = String::new();
    for line in text.lines() {
        if let Some(name) = line.strip_prefix("== ") {
            file = name.trim().to_string();
            told.entry(file.clone()).or_default();
        } else if let Some((at, hex)) = line.split_once(' ')
            && let (Ok(at), Some(bytes)) = (at.parse(), bytes_of(hex))
        {
            told.entry(file.clone()).or_default().push((at, bytes));
        }
    }
    told
}
