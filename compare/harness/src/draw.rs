//! Inputs: words of a shape, right ones and such with something wrong in them, and what is made of them.
use crate::shape::{Letters, Shape};
use crate::walk::{Setting, infinity};

/// A generator of random numbers (SplitMix64).
pub struct Random(u64);

impl Random {
    /// That of an input, by its number.
    pub fn new(seed: u64, number: u64) -> Random {
        let mut random = Random(seed ^ number.wrapping_mul(0xD134_2543_DE82_EF95));
        random.next();
        random
    }

    pub fn next(&mut self) -> u64 {
        self.0 = self.0.wrapping_add(0x9E37_79B9_7F4A_7C15);
        let mixed = (self.0 ^ (self.0 >> 30)).wrapping_mul(0xBF58_476D_1CE4_E5B9);
        let mixed = (mixed ^ (mixed >> 27)).wrapping_mul(0x94D0_49BB_1331_11EB);
        mixed ^ (mixed >> 31)
    }

    pub fn below(&mut self, end: usize) -> usize {
        ((u128::from(self.next()) * end as u128) >> 64) as usize
    }

    /// Once in so many times.
    pub fn once_in(&mut self, times: usize) -> bool {
        self.below(times) == 0
    }

    fn wide(&mut self) -> u128 {
        u128::from(self.next()) << 64 | u128::from(self.next())
    }

    /// A number of so many bytes: a small one, one of any count of bits, or one beside a bound.
    fn number(&mut self, width: usize) -> u128 {
        let bits = 8 * width as u32;
        let whole = u128::MAX >> (128 - bits);
        let drawn = match self.below(8) {
            0..=2 => self.below(12) as u128,
            3 => self.below(256) as u128,
            4 | 5 => self.wide() >> (127 - self.below(bits as usize) as u32),
            6 => {
                let bound = [
                    250,
                    251,
                    252,
                    253,
                    254,
                    255,
                    256,
                    1 << 15,
                    1 << 16,
                    1 << 31,
                    1 << 32,
                    1 << 63,
                    1 << 64,
                ];
                bound[self.below(bound.len())] + self.below(3) as u128 - 1
            }
            _ => whole - self.below(4) as u128,
        };
        drawn & whole
    }

    /// The bits of a float of so many bytes: any, those of a NaN, of one below the normal ones, of a bound, or of a small number.
    fn float(&mut self, width: usize) -> u128 {
        let (sign, infinity) = (1u128 << (8 * width - 1), infinity(width));
        // the lowest bit of the exponent
        let exponent = infinity & infinity.wrapping_neg();
        let fraction = self.wide() & (exponent - 1);
        let drawn = match self.below(8) {
            0..=2 => self.wide() & (sign - 1),
            3 => infinity | fraction.max(1),
            4 => infinity | 1 << self.below(exponent.trailing_zeros() as usize),
            5 => fraction,
            6 => {
                let bounds = [
                    0,
                    1,
                    exponent - 1,
                    exponent,
                    infinity - 1,
                    infinity,
                    infinity + 1,
                    sign - 1,
                ];
                bounds[self.below(bounds.len())]
            }
            _ if width == 4 => (self.below(1000) as f32 / 4.0).to_bits().into(),
            _ => (self.below(1000) as f64 / 4.0).to_bits().into(),
        };
        drawn | if self.once_in(2) { sign } else { 0 }
    }
}

/// How words are drawn.
pub struct Drawing<'r> {
    pub random: &'r mut Random,
    pub setting: Setting,
    /// Once in so many parts something is wrong; never, where it is none.
    pub wrong: Option<usize>,
    /// Whether numbers may have more bytes than they need.
    pub longer: bool,
    pub word: Vec<u8>,
}

const LETTERS: [char; 16] = [
    'a',
    'b',
    'c',
    'a',
    '.',
    '/',
    '.',
    '/',
    'é',
    'ß',
    '€',
    '\u{7ff}',
    '\u{800}',
    '\u{ffff}',
    '😀',
    '\u{10ffff}',
];

/// Bytes that begin or end no character, or are not all of one.
const NO_LETTERS: [&[u8]; 10] = [
    &[128],
    &[193, 128],
    &[194],
    &[224, 128, 128],
    &[226, 130],
    &[237, 160, 128],
    &[240, 128, 128, 128],
    &[244, 144, 128, 128],
    &[245],
    &[255],
];

impl Drawing<'_> {
    fn is_wrong(&mut self) -> bool {
        match self.wrong {
            Some(times) => self.random.once_in(times),
            None => false,
        }
    }

    fn digits(&mut self, number: u128, width: usize) {
        let digits = number.to_le_bytes();
        if self.setting.is_big {
            self.word.extend(digits[..width].iter().rev());
        } else {
            self.word.extend(&digits[..width]);
        }
    }

    /// A number of a type of this width, in a spelling of it.
    fn number(&mut self, number: u128, width: usize) {
        if width == 1 || self.setting.is_fixed {
            return self.digits(number, width);
        }
        if self.is_wrong() {
            let first = 251 + self.random.below(5) as u8;
            self.word.push(first);
            return;
        }
        let widths = [
            (0, 251),
            (2, 1 << 16),
            (4, 1 << 32),
            (8, 1 << 64),
            (16, u128::MAX),
        ];
        let shortest = widths
            .iter()
            .position(|(_, end)| number < *end)
            .unwrap_or(4);
        let widest = widths
            .iter()
            .rposition(|(bytes, _)| *bytes <= width)
            .unwrap_or(0);
        let spelling = if self.longer && self.random.once_in(4) && widest > shortest {
            shortest + self.random.below(widest - shortest + 1)
        } else {
            shortest
        };
        if spelling == 0 {
            self.word.push(number as u8);
        } else {
            self.word.push(250 + spelling as u8);
            self.digits(number, widths[spelling].0);
        }
    }

    /// How many items a list has, and the length that is written.
    fn count(&mut self, depth: usize) -> usize {
        let count = match self.random.below(16) {
            0..=2 => 0,
            3..=12 => 1 + self.random.below(4),
            13 | 14 => self.random.below(14),
            _ if depth == 0 => self.random.below(130),
            _ => self.random.below(30),
        };
        let length = if !self.is_wrong() {
            count as u128
        } else if self.random.once_in(2) {
            self.random.number(8)
        } else {
            (count + self.random.below(3)).saturating_sub(1) as u128
        };
        self.number(length, 8);
        count
    }

    fn letter(&mut self) -> char {
        match self.random.below(4) {
            0 => char::from_u32(self.random.next() as u32 >> 11).unwrap_or('x'),
            1 => LETTERS[self.random.below(LETTERS.len())],
            _ => (b'a' + self.random.below(4) as u8) as char,
        }
    }

    fn letters(&mut self, letters: Letters) -> Vec<u8> {
        let count = match self.random.below(12) {
            0 => 0,
            1..=8 => self.random.below(6),
            9 | 10 => self.random.below(40),
            _ => self.random.below(300),
        };
        let mut bytes = vec![];
        for _ in 0..count {
            match letters {
                Letters::Utf8 => bytes.extend(self.letter().to_string().as_bytes()),
                Letters::NoZero => bytes.push(1 + self.random.below(255) as u8),
                Letters::Any => bytes.push(self.random.next() as u8),
            }
        }
        if self.is_wrong() {
            let at = self.random.below(bytes.len() + 1);
            let wrong = match letters {
                Letters::Utf8 => NO_LETTERS[self.random.below(NO_LETTERS.len())],
                _ => &[0],
            };
            bytes.splice(at..at, wrong.iter().copied());
        }
        bytes
    }

    fn text(&mut self, letters: Letters) {
        let bytes = self.letters(letters);
        let mut length = bytes.len() as u128;
        if self.is_wrong() {
            length = if self.random.once_in(3) {
                self.random.number(8)
            } else {
                length + self.random.below(3) as u128
            };
        }
        self.number(length, 8);
        self.word.extend(bytes);
    }

    fn tag(&mut self, parts: &[(u32, Shape)], depth: usize) {
        let (tag, part) = &parts[self.random.below(parts.len())];
        if self.is_wrong() {
            let tag = self.random.number(4);
            return self.number(tag, 4);
        }
        self.number((*tag).into(), 4);
        self.draw(part, depth);
    }

    fn character(&mut self) {
        let letter = self.letter().to_string();
        if self.is_wrong() {
            self.word
                .extend(NO_LETTERS[self.random.below(NO_LETTERS.len())]);
        } else {
            self.word.extend(letter.as_bytes());
        }
    }

    /// A word of the shape.
    pub fn draw(&mut self, shape: &Shape, depth: usize) {
        match shape {
            Shape::Number { width, zero, .. } => {
                let mut number = self.random.number(*width);
                if !zero && number == 0 && !self.is_wrong() {
                    number = 1;
                }
                self.number(number, *width);
            }
            Shape::Float { width } => {
                let bits = self.random.float(*width);
                self.digits(bits, *width);
            }
            Shape::Bool => {
                let byte = if self.is_wrong() {
                    self.random.next() as u8
                } else {
                    self.random.below(2) as u8
                };
                self.word.push(byte);
            }
            Shape::Char => self.character(),
            Shape::Parts(parts) => parts.iter().for_each(|part| self.draw(part, depth)),
            Shape::Array(count, _, item) => (0..*count).for_each(|_| self.draw(item, depth)),
            Shape::Optional(part) => {
                let byte = if self.is_wrong() {
                    self.random.next() as u8
                } else {
                    u8::from(!self.random.once_in(3))
                };
                self.word.push(byte);
                if byte == 1 {
                    self.draw(part, depth);
                }
            }
            Shape::Choice(parts) => self.tag(parts, depth),
            Shape::List(_, _, item) => {
                let count = self.count(depth);
                (0..count).for_each(|_| self.draw(item, depth + 1));
            }
            Shape::Text(letters) => self.text(*letters),
            Shape::Octets(count) => {
                (0..*count).for_each(|_| self.word.push(self.random.next() as u8))
            }
            Shape::Duration => {
                let seconds = if self.random.once_in(4) {
                    u128::from(u64::MAX) - self.random.below(6) as u128
                } else {
                    self.random.number(8)
                };
                let nanos = if self.random.once_in(2) {
                    self.random.below(1_000_000_000) as u128
                } else {
                    self.random.number(4)
                };
                self.number(seconds, 8);
                self.number(nanos, 4);
            }
        }
    }
}

/// The bytes of NaNs of a float of so many bytes, the lowest first: of both signs, all whose fraction has nothing but its 16 lowest bits, and for an
/// `f64` those with nothing but its 16 highest.
pub fn nans(width: usize) -> Vec<Vec<u8>> {
    let infinity = infinity(width);
    let mut nans = vec![];
    for sign in [0, 1u128 << (8 * width - 1)] {
        for shift in [0, 36].iter().take(width / 4) {
            nans.extend((1..1u128 << 16).map(|part| sign | infinity | part << shift));
        }
    }
    nans.iter()
        .map(|bits| bits.to_le_bytes()[..width].to_vec())
        .collect()
}

pub const SORTS: [&str; 8] = [
    "written by the original",
    "with numbers in more bytes",
    "with bytes after them",
    "cut",
    "with bytes changed",
    "with a wrong part",
    "with wrong parts",
    "random bytes",
];

/// The word of an input of a sort; `again` is what the original writes for a word, if it reads it.
pub fn input(
    random: &mut Random,
    sort: usize,
    shape: &Shape,
    setting: Setting,
    again: impl Fn(&[u8]) -> Option<Vec<u8>>,
) -> Vec<u8> {
    if sort == 7 {
        let most = if random.once_in(4) { 80 } else { 20 };
        let count = random.below(most);
        return (0..count)
            .map(|_| [random.next() as u8, random.below(8) as u8][random.below(2)])
            .collect();
    }
    let mut drawing = Drawing {
        setting,
        wrong: [None, None, None, None, None, Some(20), Some(4)][sort],
        longer: sort != 0,
        word: vec![],
        random,
    };
    drawing.draw(shape, 0);
    let mut word = drawing.word;
    match sort {
        0 => word = again(&word).unwrap_or(word),
        2 => (0..1 + random.below(9)).for_each(|_| word.push(random.next() as u8)),
        3 => word.truncate(random.below(word.len() + 1)),
        4 => {
            for _ in 0..1 + random.below(3) {
                if !word.is_empty() {
                    let at = random.below(word.len());
                    let few = [0, 1, 2, 127, 128, 250, 251, 252, 253, 254, 255];
                    word[at] = if random.once_in(2) {
                        few[random.below(few.len())]
                    } else {
                        random.next() as u8
                    };
                }
            }
        }
        _ => {}
    }
    word
}
