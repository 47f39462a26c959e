//! What a room holds: 0, a number and bytes; or 1, the number of an error, three numbers, the length of a text, the text, and bytes.
use std::fmt;

/// The names of integer types, by their numbers in an error.
const TYPES: [&str; 13] = [
    "U8", "U16", "U32", "U64", "U128", "Usize", "I8", "I16", "I32", "I64", "I128", "Isize",
    "Reserved",
];

pub const UNEXPECTED_END: u8 = 1;
pub const LIMIT_EXCEEDED: u8 = 2;
pub const INVALID_INTEGER_TYPE: u8 = 3;
pub const UNEXPECTED_VARIANT: u8 = 5;
pub const UNLISTED_VARIANT: u8 = 6;
pub const IO: u8 = 15;
pub const MEMORY: u8 = 16;
pub const UNEXPECTED_OF_LIST: u8 = 19;

/// An error, by the number of its kind, with its fields.
#[derive(Clone, PartialEq)]
pub struct Fault {
    pub kind: u8,
    pub numbers: [u64; 3],
    pub text: String,
}

#[derive(Clone, PartialEq)]
pub enum Answer {
    /// How many bytes were taken or written, and the encoding of the value.
    Fine(u64, Vec<u8>),
    /// An error, and how many bytes a reader has left.
    Failed(Fault, Option<u64>),
    /// A process that was ended: by its own panic, or for want of memory.
    Died,
    /// What is none of these.
    Unclear,
}

fn number_at(bytes: &[u8], at: usize) -> Option<u64> {
    let bytes = bytes.get(at..at + 8)?;
    Some(u64::from_le_bytes(bytes.try_into().ok()?))
}

fn read(bytes: &[u8]) -> Option<Answer> {
    match bytes.first()? {
        0 => Some(Answer::Fine(number_at(bytes, 1)?, bytes.get(9..)?.to_vec())),
        1 => {
            let numbers = [
                number_at(bytes, 2)?,
                number_at(bytes, 10)?,
                number_at(bytes, 18)?,
            ];
            let end = 34 + number_at(bytes, 26)? as usize;
            let fault = Fault {
                kind: bytes[1],
                numbers,
                text: String::from_utf8(bytes.get(34..end)?.to_vec()).ok()?,
            };
            Some(Answer::Failed(fault, number_at(bytes, end)))
        }
        _ => None,
    }
}

impl Answer {
    pub fn of(bytes: &[u8]) -> Answer {
        read(bytes).unwrap_or(Answer::Unclear)
    }

    /// The kind of the error, if it is one.
    pub fn kind(&self) -> Option<u8> {
        match self {
            Answer::Failed(fault, _) => Some(fault.kind),
            _ => None,
        }
    }
}

pub fn hex(bytes: &[u8]) -> String {
    bytes.iter().map(|byte| format!("{byte:02x}")).collect()
}

impl fmt::Display for Fault {
    fn fmt(&self, f: &mut fmt::Formatter<'_>) -> fmt::Result {
        let [first, second, third] = self.numbers;
        let name = |number: u64| TYPES.get(number as usize).copied().unwrap_or("?");
        let text = &self.text;
        match self.kind {
            UNEXPECTED_END => write!(f, "UnexpectedEnd {{ additional: {first} }}"),
            LIMIT_EXCEEDED => write!(f, "LimitExceeded"),
            INVALID_INTEGER_TYPE => {
                write!(
                    f,
                    "InvalidIntegerType {{ expected: {}, found: {} }}",
                    name(first),
                    name(second)
                )
            }
            4 => write!(f, "NonZeroTypeIsZero {{ {} }}", name(first)),
            UNEXPECTED_VARIANT => {
                write!(
                    f,
                    "UnexpectedVariant {{ {text}, found: {first}, min: {second}, max: {third} }}"
                )
            }
            UNLISTED_VARIANT => write!(
                f,
                "UnlistedVariant {{ {text}, found: {first}, {second} tags }}"
            ),
            UNEXPECTED_OF_LIST => write!(
                f,
                "UnexpectedVariant {{ {text}, found: {first}, {second} tags }}"
            ),
            7 => write!(
                f,
                "Utf8 {{ valid_up_to: {first}, error_len + 1: {second} }}"
            ),
            8 => write!(
                f,
                "InvalidCharEncoding({})",
                hex(&(first as u32).to_le_bytes())
            ),
            9 => write!(f, "InvalidBooleanValue({first})"),
            12 => write!(f, "EmptyEnum {{ {text} }}"),
            13 => write!(f, "InvalidDuration {{ secs: {first}, nanos: {second} }}"),
            14 => write!(f, "CStringNulError {{ position: {first} }}"),
            IO => write!(f, "Io {{ additional: {first}, kind {second} }}"),
            MEMORY | 106 => write!(f, "Memory"),
            101 => write!(f, "UnexpectedEnd of encoding"),
            104 => write!(f, "Io of encoding {{ index: {first}, kind {second} }}"),
            kind => write!(f, "error {kind} {first} {second} {third} {text}"),
        }
    }
}

impl fmt::Display for Answer {
    fn fmt(&self, f: &mut fmt::Formatter<'_>) -> fmt::Result {
        match self {
            Answer::Fine(count, bytes) => write!(f, "Ok, {count} bytes, {}", hex(bytes)),
            Answer::Failed(fault, None) => write!(f, "{fault}"),
            Answer::Failed(fault, Some(left)) => write!(f, "{fault}, {left} bytes left"),
            Answer::Died => write!(f, "ended the process"),
            Answer::Unclear => write!(f, "no answer"),
        }
    }
}
