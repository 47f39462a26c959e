//! The calls, each of which leaves its answer in a room as the port's side does; and the names that the types have.
#![allow(unused_imports)]

pub use crate::own::*;
use crate::pieces::{Pieces, Sink};
pub use bincode::config;
use bincode::config::Config;
use bincode::de::read::{Reader, SliceReader};
use bincode::enc::write::SizeWriter;
use bincode::error::{AllowedEnumVariants, DecodeError, EncodeError, IntegerType};
use bincode::{BorrowDecode, Decode, Encode};
use std::io::{self, BufReader, ErrorKind};

pub use std::borrow::Cow;
pub use std::cell::{Cell, RefCell};
pub use std::cmp::Reverse;
pub use std::collections::{BTreeMap, BTreeSet, BinaryHeap, HashMap, HashSet, VecDeque};
pub use std::ffi::CString;
pub use std::marker::PhantomData;
pub use std::net::{IpAddr, Ipv4Addr, Ipv6Addr, SocketAddr, SocketAddrV4, SocketAddrV6};
pub use std::num::*;
pub use std::ops::{Bound, Range, RangeInclusive};
pub use std::path::PathBuf;
pub use std::rc::Rc;
pub use std::sync::Arc;
pub use std::time::Duration;

// What has another name in the port.
pub type OrderedFloat<T> = T;
pub type BoxedStr = Box<str>;
pub type BoxedSlice<T> = Box<[T]>;
pub type RcStr = Rc<str>;
pub type RcSlice<T> = Rc<[T]>;
pub type CowStr<'a> = Cow<'a, str>;
pub type CowSlice<'a, T> = Cow<'a, [T]>;
pub type Path<'a> = &'a std::path::Path;

pub type Numbers = (usize, usize);

/// How many bytes of a room tell how an encoding went; those after them are what it wrote to.
pub const HEAD: usize = 64;

fn put(out: &mut [u8], at: usize, bytes: &[u8]) -> usize {
    if let Some(room) = out.get_mut(at..at + bytes.len()) {
        room.copy_from_slice(bytes);
    }
    at + bytes.len()
}

fn put_number(out: &mut [u8], at: usize, number: usize) -> usize {
    put(out, at, &(number as u64).to_le_bytes())
}

fn put_success(out: &mut [u8], number: usize) -> usize {
    let at = put(out, 0, &[0]);
    put_number(out, at, number)
}

fn put_error(out: &mut [u8], kind: u8, numbers: (usize, usize, usize), text: &str) -> usize {
    let mut at = put(out, 0, &[1, kind]);
    for number in [numbers.0, numbers.1, numbers.2, text.len()] {
        at = put_number(out, at, number);
    }
    put(out, at, text.as_bytes())
}

fn number_of_type(of: &IntegerType) -> usize {
    match of {
        IntegerType::U8 => 0,
        IntegerType::U16 => 1,
        IntegerType::U32 => 2,
        IntegerType::U64 => 3,
        IntegerType::U128 => 4,
        IntegerType::Usize => 5,
        IntegerType::I8 => 6,
        IntegerType::I16 => 7,
        IntegerType::I32 => 8,
        IntegerType::I64 => 9,
        IntegerType::I128 => 10,
        IntegerType::Isize => 11,
        IntegerType::Reserved => 12,
        _ => 99,
    }
}

fn number_of_stream(error: &io::Error) -> usize {
    let number = match error.kind() {
        ErrorKind::UnexpectedEof => 1,
        ErrorKind::BrokenPipe => 2,
        ErrorKind::WriteZero => 3,
        ErrorKind::Interrupted => 4,
        _ => 5,
    };
    if error.raw_os_error().is_some() {
        100
    } else {
        number
    }
}

fn fold_tags(tags: &[u32]) -> usize {
    tags.iter().fold(0, |folded: usize, tag| {
        folded.wrapping_mul(31).wrapping_add(*tag as usize)
    })
}

pub fn put_decode_error(out: &mut [u8], error: &DecodeError) -> usize {
    let (kind, numbers, text) = match error {
        DecodeError::UnexpectedEnd { additional } => (1, (*additional, 0, 0), ""),
        DecodeError::LimitExceeded => (2, (0, 0, 0), ""),
        DecodeError::InvalidIntegerType { expected, found } => {
            (3, (number_of_type(expected), number_of_type(found), 0), "")
        }
        DecodeError::NonZeroTypeIsZero { non_zero_type } => {
            (4, (number_of_type(non_zero_type), 0, 0), "")
        }
        DecodeError::UnexpectedVariant {
            type_name,
            found,
            allowed,
        } => match allowed {
            AllowedEnumVariants::Range { min, max } => (
                5,
                (*found as usize, *min as usize, *max as usize),
                *type_name,
            ),
            AllowedEnumVariants::Allowed(tags) => (
                19,
                (*found as usize, tags.len(), fold_tags(tags)),
                *type_name,
            ),
            _ => (99, (0, 0, 0), ""),
        },
        DecodeError::Utf8 { inner } => {
            let length = inner.error_len().map_or(0, |length| length + 1);
            (7, (inner.valid_up_to(), length, 0), "")
        }
        DecodeError::InvalidCharEncoding(bytes) => {
            (8, (u32::from_le_bytes(*bytes) as usize, 0, 0), "")
        }
        DecodeError::InvalidBooleanValue(byte) => (9, (*byte as usize, 0, 0), ""),
        DecodeError::ArrayLengthMismatch { required, found } => (10, (*required, *found, 0), ""),
        DecodeError::OutsideUsizeRange(number) => (11, (*number as usize, 0, 0), ""),
        DecodeError::EmptyEnum { type_name } => (12, (0, 0, 0), *type_name),
        DecodeError::InvalidDuration { secs, nanos } => {
            (13, (*secs as usize, *nanos as usize, 0), "")
        }
        DecodeError::CStringNulError { position } => (14, (*position, 0, 0), ""),
        DecodeError::Io { inner, additional } => {
            (15, (*additional, number_of_stream(inner), 0), "")
        }
        DecodeError::Other(text) => (17, (0, 0, 0), *text),
        DecodeError::OtherString(text) => (18, (0, 0, 0), text.as_str()),
        _ => (99, (0, 0, 0), ""),
    };
    put_error(out, kind, numbers, text)
}

fn put_encode_error(out: &mut [u8], error: &EncodeError) -> usize {
    let (kind, numbers, text) = match error {
        EncodeError::UnexpectedEnd => (101, (0, 0, 0), ""),
        EncodeError::RefCellAlreadyBorrowed { type_name, .. } => (102, (0, 0, 0), *type_name),
        EncodeError::Io { inner, index } => (104, (*index, number_of_stream(inner), 0), ""),
        EncodeError::Other(text) => (107, (0, 0, 0), *text),
        EncodeError::OtherString(text) => (108, (0, 0, 0), text.as_str()),
        _ => (99, (0, 0, 0), ""),
    };
    put_error(out, kind, numbers, text)
}

fn put_value<T: Encode, C: Config>(out: &mut [u8], value: &T, taken: usize, config: C) -> usize {
    let at = put_success(out, taken);
    match bincode::encode_into_slice(value, &mut out[at..], config) {
        Ok(count) => at + count,
        Err(error) => put_encode_error(out, &error),
    }
}

fn put_outcome<T: Encode, C: Config>(
    out: &mut [u8],
    outcome: Result<(T, usize), DecodeError>,
    config: C,
) -> usize {
    match outcome {
        Ok((value, taken)) => put_value(out, &value, taken, config),
        Err(error) => put_decode_error(out, &error),
    }
}

pub fn by_slice<T: Decode<()> + Encode, C: Config>(
    input: &[u8],
    out: &mut [u8],
    config: C,
) -> usize {
    put_outcome(
        out,
        bincode::decode_from_slice::<T, _>(input, config),
        config,
    )
}

pub fn by_borrow<'a, T: BorrowDecode<'a, ()> + Encode, C: Config>(
    input: &'a [u8],
    out: &mut [u8],
    config: C,
) -> usize {
    put_outcome(
        out,
        bincode::borrow_decode_from_slice::<T, _>(input, config),
        config,
    )
}

pub fn by_stream<T: Decode<()> + Encode, C: Config>(
    input: &[u8],
    out: &mut [u8],
    numbers: Numbers,
    config: C,
) -> usize {
    let mut stream = Pieces::new(input, numbers.0, numbers.1);
    match bincode::decode_from_std_read::<T, _, _>(&mut stream, config) {
        Ok(value) => put_value(out, &value, input.len() - stream.bytes.len(), config),
        Err(error) => put_decode_error(out, &error),
    }
}

/// Puts what was read through a buffer.
fn put_buffered<T: Encode, C: Config>(
    input: &[u8],
    out: &mut [u8],
    outcome: Result<T, DecodeError>,
    buffered: &BufReader<Pieces<'_>>,
    config: C,
) -> usize {
    let left = buffered.buffer().len() + buffered.get_ref().bytes.len();
    match outcome {
        Ok(value) => put_value(out, &value, input.len() - left, config),
        Err(error) => put_decode_error(out, &error),
    }
}

pub fn by_buffer<T: Decode<()> + Encode, C: Config>(
    input: &[u8],
    out: &mut [u8],
    numbers: Numbers,
    config: C,
) -> usize {
    let stream = Pieces::new(input, numbers.0, usize::MAX);
    let mut buffered = BufReader::with_capacity(numbers.1, stream);
    let outcome = bincode::decode_from_reader::<T, _, _>(&mut buffered, config);
    put_buffered(input, out, outcome, &buffered, config)
}

/// The same by the call for streams.
pub fn by_window<T: Decode<()> + Encode, C: Config>(
    input: &[u8],
    out: &mut [u8],
    numbers: Numbers,
    config: C,
) -> usize {
    let stream = Pieces::new(input, numbers.0, usize::MAX);
    let mut buffered = BufReader::with_capacity(numbers.1, stream);
    let outcome = bincode::decode_from_std_read::<T, _, _>(&mut buffered, config);
    put_buffered(input, out, outcome, &buffered, config)
}

/// How many bytes a reader has left.
fn bytes_left(input: &[u8], reader: &mut SliceReader<'_>) -> usize {
    let at = reader.peek_read(0).expect("no bytes are there").as_ptr();
    input.as_ptr_range().end as usize - at as usize
}

pub fn by_reader<T: Decode<()> + Encode, C: Config>(
    input: &[u8],
    out: &mut [u8],
    config: C,
) -> usize {
    let mut reader = SliceReader::new(input);
    let outcome = bincode::decode_from_reader::<T, _, _>(&mut reader, config);
    let left = bytes_left(input, &mut reader);
    match outcome {
        Ok(value) => put_value(out, &value, input.len() - left, config),
        Err(error) => {
            let at = put_decode_error(out, &error);
            put_number(out, at, left)
        }
    }
}

pub fn to_vector<T: Encode, C: Config>(out: &mut [u8], value: &T, config: C) -> usize {
    match bincode::encode_to_vec(value, config) {
        Ok(bytes) => {
            let at = put_success(out, bytes.len());
            put(out, at, &bytes)
        }
        Err(error) => put_encode_error(out, &error),
    }
}

pub fn to_slice<T: Encode, C: Config>(
    out: &mut [u8],
    value: &T,
    length: usize,
    config: C,
) -> usize {
    let length = length.min(out.len() - HEAD);
    match bincode::encode_into_slice(value, &mut out[HEAD..][..length], config) {
        Ok(count) => put_success(out, count),
        Err(error) => put_encode_error(out, &error),
    }
}

pub fn to_stream<T: Encode, C: Config>(
    out: &mut [u8],
    value: &T,
    numbers: Numbers,
    config: C,
) -> usize {
    let mut sink = Sink::new(&mut out[HEAD..], numbers.0, numbers.1);
    match bincode::encode_into_std_write(value, &mut sink, config) {
        Ok(count) => put_success(out, count),
        Err(error) => put_encode_error(out, &error),
    }
}

pub fn to_count<T: Encode, C: Config>(out: &mut [u8], value: &T, config: C) -> usize {
    let mut encoder = bincode::enc::EncoderImpl::new(SizeWriter::default(), config);
    match value.encode(&mut encoder) {
        Ok(()) => put_success(out, encoder.into_writer().bytes_written),
        Err(error) => put_encode_error(out, &error),
    }
}
