//! Reads an input by the shape of a type alone, as docs/FORMAT.md, sections 9 and 10, says: what is charged and reserved, and the first fault.
//! It is written apart from both sides, and tells which differences under a limit come of what a container claims.
use crate::answer::{INVALID_INTEGER_TYPE, LIMIT_EXCEEDED, UNEXPECTED_END, UNEXPECTED_VARIANT};
use crate::shape::{Claims, Holding, Letters, Shape};
use std::str;

#[derive(Clone, Copy, PartialEq)]
pub struct Setting {
    pub is_big: bool,
    pub is_fixed: bool,
}

/// What is counted against a limit.
#[derive(Clone, Copy)]
pub struct Counting {
    /// Containers claim the sizes of docs/FORMAT.md, and not those in memory.
    pub by_stated: bool,
    /// The octets of addresses are charged.
    pub octets: bool,
}

pub const PORT: Counting = Counting {
    by_stated: true,
    octets: true,
};
pub const ORIGINAL: Counting = Counting {
    by_stated: false,
    octets: false,
};
/// As the original, but for the octets.
pub const BETWEEN: Counting = Counting {
    by_stated: false,
    octets: true,
};

/// How many bytes a hashed container of the port's standard library takes for an entry beside its key and its value: 8 for its hash and its place, and
/// its part of a group, of which there are a power of two, each with 64 bytes for up to 12 entries.
const HASHED: u128 = 8 + 64 / 6;

pub struct Walk<'a> {
    input: &'a [u8],
    pub at: usize,
    setting: Setting,
    counting: Counting,
    limit: Option<u64>,
    sum: u128,
    /// The most bytes that a container reserves for its items.
    pub widest: u128,
    /// The most bytes that a hashed container of the port reserves beside them.
    pub most_hashed: u128,
    /// The most items that a container of items without bytes has.
    pub most_empty: u128,
    /// Where NaNs begin, and how many bytes each has.
    nans: Vec<(usize, usize)>,
    /// The values that were read, in one form: numbers in 16 bytes, the items of a bag in order.
    pub form: Vec<u8>,
}

type Step<T> = Result<T, u8>;

/// How many bytes a character has, by its first one; 0 for what begins none.
fn width_of(first: u8) -> usize {
    match first {
        0..=127 => 1,
        194..=223 => 2,
        224..=239 => 3,
        240..=244 => 4,
        _ => 0,
    }
}

/// The bits of the infinity of a float of so many bytes.
pub fn infinity(width: usize) -> u128 {
    match width {
        4 => f32::INFINITY.to_bits().into(),
        _ => f64::INFINITY.to_bits().into(),
    }
}

/// The bits that the port writes for each NaN, as docs/DIFFERENCES.md has them.
fn nan(width: usize) -> u128 {
    if width == 4 {
        0x7fc0_0000
    } else {
        0x7ff8_0000_0000_0000
    }
}

impl<'a> Walk<'a> {
    pub fn new(
        input: &'a [u8],
        setting: Setting,
        counting: Counting,
        limit: Option<u64>,
    ) -> Walk<'a> {
        Walk {
            input,
            at: 0,
            setting,
            counting,
            limit,
            sum: 0,
            widest: 0,
            most_hashed: 0,
            most_empty: 0,
            nans: vec![],
            form: vec![],
        }
    }

    fn charge(&mut self, count: u128) -> Step<()> {
        self.sum += count;
        match self.limit {
            Some(limit) if self.sum > u128::from(limit) => Err(LIMIT_EXCEEDED),
            _ => Ok(()),
        }
    }

    fn read(&mut self, count: u64) -> Step<&'a [u8]> {
        let rest = &self.input[self.at..];
        if count > rest.len() as u64 {
            return Err(UNEXPECTED_END);
        }
        self.at += count as usize;
        Ok(&rest[..count as usize])
    }

    fn digits(&mut self, width: u64) -> Step<u128> {
        let bytes = self.read(width)?;
        let add = |sum: u128, byte: &u8| (sum << 8) | u128::from(*byte);
        Ok(if self.setting.is_big {
            bytes.iter().fold(0, add)
        } else {
            bytes.iter().rev().fold(0, add)
        })
    }

    fn number(&mut self, width: u64) -> Step<u128> {
        self.charge(width.into())?;
        if width == 1 || self.setting.is_fixed {
            return self.digits(width);
        }
        let first = self.read(1)?[0];
        match first {
            0..=250 => Ok(first.into()),
            251 => self.digits(2),
            252 if width >= 4 => self.digits(4),
            253 if width >= 8 => self.digits(8),
            254 if width >= 16 => self.digits(16),
            _ => Err(INVALID_INTEGER_TYPE),
        }
    }

    fn float(&mut self, width: usize) -> Step<()> {
        self.charge(width as u128)?;
        let bits = self.digits(width as u64)?;
        if bits & !(1 << (8 * width - 1)) > infinity(width) {
            self.nans.push((self.at - width, width));
        }
        self.put(bits);
        Ok(())
    }

    fn put(&mut self, number: u128) {
        self.form.extend_from_slice(&number.to_le_bytes());
    }

    fn claim(&self, claims: Claims) -> u128 {
        u128::from(if self.counting.by_stated {
            claims.stated
        } else {
            claims.in_memory
        })
    }

    fn items(&mut self, count: u128, claim: u128, item: &Shape, is_bag: bool) -> Step<()> {
        self.charge(count * claim)?;
        if item.is_empty() {
            self.most_empty = self.most_empty.max(count);
            self.sum -= count * claim;
            return Ok(());
        }
        let start = self.form.len();
        let mut forms = vec![];
        for _ in 0..count {
            self.sum -= claim;
            self.walk(item)?;
            if is_bag {
                forms.push(self.form.split_off(start));
            }
        }
        forms.sort();
        forms
            .iter()
            .for_each(|form| self.form.extend_from_slice(form));
        Ok(())
    }

    fn text(&mut self, letters: Letters) -> Step<()> {
        let count = self.number(8)?;
        self.widest = self.widest.max(count);
        self.charge(count)?;
        let bytes = self.read(count as u64)?;
        match letters {
            Letters::Utf8 if str::from_utf8(bytes).is_err() => return Err(7),
            Letters::NoZero if bytes.contains(&0) => return Err(14),
            _ => {}
        }
        self.put(count);
        self.form.extend_from_slice(bytes);
        Ok(())
    }

    fn character(&mut self) -> Step<()> {
        let start = self.at;
        let width = width_of(self.read(1)?[0]) as u64;
        if width == 0 {
            return Err(8);
        }
        self.charge(width.into())?;
        self.read(width - 1)?;
        let read = str::from_utf8(&self.input[start..self.at]).map_err(|_| 8u8)?;
        self.put(read.chars().next().map_or(0, u128::from));
        Ok(())
    }

    fn duration(&mut self) -> Step<()> {
        let (seconds, nanos) = (self.number(8)?, self.number(4)?);
        let carried = seconds + nanos / 1_000_000_000;
        if carried > u128::from(u64::MAX) {
            return Err(13);
        }
        self.put(carried);
        self.put(nanos % 1_000_000_000);
        Ok(())
    }

    /// Reads a value, or answers the number of the first fault.
    pub fn walk(&mut self, shape: &Shape) -> Step<()> {
        match shape {
            Shape::Number { width, zero, .. } => {
                let number = self.number(*width as u64)?;
                if number == 0 && !zero {
                    return Err(4);
                }
                self.put(number);
            }
            Shape::Float { width } => self.float(*width)?,
            Shape::Bool => {
                let byte = self.number(1)?;
                if byte > 1 {
                    return Err(9);
                }
                self.put(byte);
            }
            Shape::Char => self.character()?,
            Shape::Parts(parts) => parts.iter().try_for_each(|part| self.walk(part))?,
            Shape::Array(count, claims, item) => {
                let claim = self.claim(*claims);
                self.items(*count as u128, claim, item, false)?;
            }
            Shape::Optional(part) => {
                let tag = self.number(1)?;
                self.put(tag);
                match tag {
                    0 => {}
                    1 => self.walk(part)?,
                    _ => return Err(UNEXPECTED_VARIANT),
                }
            }
            Shape::Choice(parts) => {
                let tag = self.number(4)?;
                let part = parts.iter().find(|(of, _)| u128::from(*of) == tag);
                self.put(tag);
                self.walk(&part.ok_or(UNEXPECTED_VARIANT)?.1)?;
            }
            Shape::List(holding, claims, item) => {
                let count = self.number(8)?;
                if *holding != Holding::Tree {
                    let size = claims.stated.max(claims.in_memory).max(1);
                    self.widest = self.widest.max(count.saturating_mul(size.into()));
                }
                if *holding == Holding::Hashed {
                    self.most_hashed = self.most_hashed.max(count.saturating_mul(HASHED));
                }
                self.put(count);
                let claim = self.claim(*claims);
                self.items(count, claim, item, holding.is_bag())?;
            }
            Shape::Text(letters) => self.text(*letters)?,
            Shape::Octets(count) => {
                if self.counting.octets {
                    self.charge(*count as u128)?;
                }
                let octets = self.read(*count as u64)?;
                self.form.extend_from_slice(octets);
            }
            Shape::Duration => self.duration()?,
        }
        Ok(())
    }
}

/// The values of an encoding, in one form, if it is one and has all of the bytes.
pub fn form_of(shape: &Shape, setting: Setting, bytes: &[u8]) -> Option<Vec<u8>> {
    let mut walk = Walk::new(bytes, setting, PORT, None);
    walk.walk(shape).ok()?;
    (walk.at == bytes.len()).then_some(walk.form)
}

/// An encoding with the port's bits for each of its NaNs, if it is one and has all of the bytes.
pub fn with_one_nan(shape: &Shape, setting: Setting, bytes: &[u8]) -> Option<Vec<u8>> {
    let mut walk = Walk::new(bytes, setting, PORT, None);
    walk.walk(shape).ok()?;
    if walk.at != bytes.len() {
        return None;
    }
    let mut written = bytes.to_vec();
    for (at, width) in walk.nans {
        let mut digits = nan(width).to_le_bytes();
        if setting.is_big {
            digits[..width].reverse();
        }
        written[at..at + width].copy_from_slice(&digits[..width]);
    }
    Some(written)
}
