"""The port's side: a function for each type, which makes the call of a number under the configuration of a number and leaves the result in a
buffer. What a buffer holds is in harness/src/answer.rs."""

import kinds

TOP = """//! The port's side of a comparison with the original.
#![tactic(auto)]

use bincode::config::Config;
use bincode::de::read::SliceReader;
use bincode::enc::write::SizeWriter;
use bincode::error::{DecodeError, EncodeError, IntegerType, StreamError};
USED
use bincode::{BorrowDecode, Decode, Encode, borrow_decode_from_slice, config, decode_from_reader};
use bincode::{decode_from_buf_read, decode_from_slice, decode_from_std_read};
use bincode::{encode_into_slice, encode_into_std_write};
use bincode::{encode_into_writer, encode_to_vec};
use std::alloc::Global;
use std::io;
use std::io::{BufReader, ErrorKind, Read, Write};
"""

# what is named by the types; those of a library that no type names are left out
NAMES = {
    "std::borrow": ("Cow", "CowSlice", "CowStr"),
    "std::boxed": ("BoxedSlice", "BoxedStr"),
    "std::cell": ("Cell", "RefCell"),
    "std::cmp": ("OrderedFloat", "Reverse"),
    "std::collections": ("BTreeMap", "BTreeSet", "BinaryHeap", "HashMap", "HashSet", "VecDeque"),
    "std::marker": ("PhantomData",),
    "std::net": ("IpAddr", "Ipv4Addr", "Ipv6Addr", "SocketAddr", "SocketAddrV4", "SocketAddrV6"),
    "std::num": (*kinds.NON_ZERO, "Wrapping"),
    "std::ops": ("Bound", "Range", "RangeInclusive"),
    "std::path": ("Path", "PathBuf"),
    "std::rc": ("Rc", "RcSlice", "RcStr"),
    "std::sync": ("Arc",),
    "bincode::ffi": ("CString",),
    "bincode::time": ("Duration",),
    "derived_types::enums": ("Figure",),
    "derived_types::lent": ("Word",),
    "derived_types::packets": ("Packet",),
    "derived_types::replies": ("Reply",),
    "derived_types::structs": ("Millimetres", "Nothing", "Point", "Wrapper"),
    "derived_types::tags": ("Mixed",),
    "derived_types::turns": ("Turn",),
}

ANSWERS = """
/// How many bytes of a room tell how an encoding went; those after them are what it wrote to.
const HEAD: usize = 64;

/// The room that begins there.
fn room(out: &mut [u8], at: usize) -> &mut [u8] {
    if at <= out.len() { &mut out[at..] } else { out }
}

/// Puts bytes into the room there, and answers where they end.
fn put(out: &mut [u8], at: usize, bytes: &[u8]) -> usize {
    let room = room(out, at);
    if bytes.len() <= room.len() {
        room[..bytes.len()].copy_from_slice(bytes);
    }
    at.wrapping_add(bytes.len())
}

fn put_number(out: &mut [u8], at: usize, number: usize) -> usize {
    put(out, at, &(number as u64).to_le_bytes())
}

/// Puts that it went well, and a number.
fn put_success(out: &mut [u8], number: usize) -> usize {
    let at = put(out, 0, &[0]);
    put_number(out, at, number)
}

/// Puts an error: the number of its kind, and the three numbers and the text that it holds.
fn put_error(out: &mut [u8], kind: u8, numbers: (usize, usize, usize), text: &str) -> usize {
    let at = put(out, 0, &[1, kind]);
    let at = put_number(out, at, numbers.0);
    let at = put_number(out, at, numbers.1);
    let at = put_number(out, at, numbers.2);
    let at = put_number(out, at, text.len());
    put(out, at, text.as_bytes())
}

fn number_of_type(of: IntegerType) -> usize {
    match of {
        IntegerType::U8 => 0,
        IntegerType::U16 => 1,
        IntegerType::U32 => 2,
        IntegerType::U64 => 3,
        IntegerType::U128 => 4,
        IntegerType::Usize => 5,
        IntegerType::I8 => 6,
        IntegerType::I16 => 7,
        IntegerType::I32 => 8,
        IntegerType::I64 => 9,
        IntegerType::I128 => 10,
        IntegerType::Isize => 11,
        IntegerType::Reserved => 12,
    }
}

/// The number of a stream's error by its kind, and whether the system gave it a number.
fn number_of_stream(error: &StreamError) -> usize {
    let number = match error.kind() {
        ErrorKind::UnexpectedEof => 1,
        ErrorKind::BrokenPipe => 2,
        ErrorKind::WriteZero => 3,
        ErrorKind::Interrupted => 4,
        _ => 5,
    };
    if error.raw_os_error().is_some() { 100 } else { number }
}

/// One number for a list of tags.
fn fold_tags(tags: &[u32]) -> usize {
    let mut folded = 0usize;
    for tag in tags {
        folded = folded.wrapping_mul(31).wrapping_add(*tag as usize);
    }
    folded
}

fn put_decode_error(out: &mut [u8], error: &DecodeError) -> usize {
    match error {
        DecodeError::UnexpectedEnd { additional } => put_error(out, 1, (*additional, 0, 0), ""),
        DecodeError::LimitExceeded => put_error(out, 2, (0, 0, 0), ""),
        DecodeError::InvalidIntegerType { expected, found } => {
            put_error(out, 3, (number_of_type(*expected), number_of_type(*found), 0), "")
        }
        DecodeError::NonZeroTypeIsZero { non_zero_type } => {
            put_error(out, 4, (number_of_type(*non_zero_type), 0, 0), "")
        }
        DecodeError::UnexpectedVariant {
            type_name,
            found,
            min,
            max,
        } => put_error(out, 5, (*found as usize, *min as usize, *max as usize), type_name.as_str()),
        DecodeError::UnlistedVariant {
            type_name,
            found,
            allowed,
        } => put_error(out, 6, (*found as usize, allowed.len(), fold_tags(allowed)), type_name.as_str()),
        DecodeError::Utf8 { inner } => {
            let length = match inner.error_len() {
                Some(length) => length.wrapping_add(1),
                None => 0,
            };
            put_error(out, 7, (inner.valid_up_to(), length, 0), "")
        }
        DecodeError::InvalidCharEncoding(bytes) => {
            put_error(out, 8, (u32::from_le_bytes(*bytes) as usize, 0, 0), "")
        }
        DecodeError::InvalidBooleanValue(byte) => put_error(out, 9, (*byte as usize, 0, 0), ""),
        DecodeError::ArrayLengthMismatch { required, found } => {
            put_error(out, 10, (*required, *found, 0), "")
        }
        DecodeError::OutsideUsizeRange(number) => put_error(out, 11, (*number as usize, 0, 0), ""),
        DecodeError::EmptyEnum { type_name } => put_error(out, 12, (0, 0, 0), type_name.as_str()),
        DecodeError::InvalidDuration { secs, nanos } => {
            put_error(out, 13, (*secs as usize, *nanos as usize, 0), "")
        }
        DecodeError::CStringNulError { position } => put_error(out, 14, (*position, 0, 0), ""),
        DecodeError::Io { inner, additional } => {
            put_error(out, 15, (*additional, number_of_stream(inner), 0), "")
        }
        DecodeError::Memory => put_error(out, 16, (0, 0, 0), ""),
        DecodeError::Other(text) => put_error(out, 17, (0, 0, 0), text.as_str()),
        DecodeError::OtherString(text) => put_error(out, 18, (0, 0, 0), text.as_str()),
    }
}

fn put_encode_error(out: &mut [u8], error: &EncodeError) -> usize {
    match error {
        EncodeError::UnexpectedEnd => put_error(out, 101, (0, 0, 0), ""),
        EncodeError::RefCellAlreadyBorrowed { type_name } => {
            put_error(out, 102, (0, 0, 0), type_name.as_str())
        }
        EncodeError::LockFailed { type_name } => put_error(out, 103, (0, 0, 0), type_name.as_str()),
        EncodeError::Io { inner, index } => {
            put_error(out, 104, (*index, number_of_stream(inner), 0), "")
        }
        EncodeError::InvalidPathCharacters => put_error(out, 105, (0, 0, 0), ""),
        EncodeError::Memory => put_error(out, 106, (0, 0, 0), ""),
        EncodeError::Other(text) => put_error(out, 107, (0, 0, 0), text.as_str()),
        EncodeError::OtherString(text) => put_error(out, 108, (0, 0, 0), text.as_str()),
    }
}

/// Puts how many bytes a value took, and its encoding.
fn put_value<T: Encode, C: Config>(out: &mut [u8], value: &T, taken: usize, config: C) -> usize {
    let at = put_success(out, taken);
    match encode_into_slice(value, room(out, at), config) {
        Ok(count) => at.wrapping_add(count),
        Err(error) => put_encode_error(out, &error),
    }
}

/// A stream that gives a few bytes a call, is interrupted at each fourth, and breaks after some bytes.
#[derive(Drop)]
struct Pieces<'s> {
    bytes: &'s [u8],
    most: usize,
    left: usize,
    calls: usize,
}

fn pieces_of(input: &[u8], most: usize, left: usize) -> Pieces<'_> {
    Pieces {
        bytes: input,
        most,
        left,
        calls: 0,
    }
}

impl Read for Pieces<'_> {
    fn read(&mut self, bytes: &mut [u8]) -> io::Result<usize> {
        self.calls = self.calls.wrapping_add(1);
        if self.calls % 4 == 3 {
            return Err(ErrorKind::Interrupted.into());
        }
        if self.left == 0 && !bytes.is_empty() {
            return Err(ErrorKind::BrokenPipe.into());
        }
        let most = bytes.len().min(self.most).min(self.left);
        let count = self.bytes.read(&mut bytes[..most])?;
        self.left = self.left.saturating_sub(count);
        Ok(count)
    }
}

/// The same of a stream that is written to, into a room.
#[derive(Drop)]
struct Sink<'s> {
    room: &'s mut [u8],
    at: usize,
    most: usize,
    left: usize,
    calls: usize,
}

impl Write for Sink<'_> {
    fn write(&mut self, bytes: &[u8]) -> io::Result<usize> {
        self.calls = self.calls.wrapping_add(1);
        if self.calls % 4 == 3 {
            return Err(ErrorKind::Interrupted.into());
        }
        if self.left == 0 && !bytes.is_empty() {
            return Err(ErrorKind::BrokenPipe.into());
        }
        let count = bytes.len().min(self.most).min(self.left);
        put(self.room, self.at, &bytes[..count]);
        self.at = self.at.wrapping_add(count);
        self.left = self.left.saturating_sub(count);
        Ok(count)
    }

    fn flush(&mut self) -> io::Result<()> {
        Ok(())
    }
}
"""

# decode_from_reader, from a buffer before a stream
BY_BUFFER = """
fn by_buffer<T: Decode<()> + Encode, C: Config>(
    alloc: Global,
    input: &[u8],
    out: &mut [u8],
    numbers: (usize, usize),
    config: C,
) -> usize {
    let stream = pieces_of(input, numbers.0, usize::MAX);
    let Ok(mut buffered) = BufReader::with_capacity(alloc, numbers.1, stream) else {
        return put_decode_error(out, &DecodeError::Memory);
    };
    let outcome = decode_from_reader::<T, _, _>(alloc, &mut buffered, config);
    let left = buffered.buffer().len().wrapping_add(buffered.get_ref().bytes.len());
    match outcome {
        Ok(value) => put_value(out, &value, input.len().wrapping_sub(left), config),
        Err(error) => put_decode_error(out, &error),
    }
}
"""

# decode_from_buf_read, from the same; the original's is decode_from_std_read
BY_WINDOW = BY_BUFFER.replace("by_buffer", "by_window").replace("decode_from_reader", "decode_from_buf_read")

# The calls. Each is generic over the type and the configuration: it is proved once, and compiled for each type.
CALLS = """
fn put_outcome<T: Encode, C: Config>(
    out: &mut [u8],
    outcome: Result<(T, usize), DecodeError>,
    config: C,
) -> usize {
    match outcome {
        Ok((value, taken)) => put_value(out, &value, taken, config),
        Err(error) => put_decode_error(out, &error),
    }
}

fn by_slice<T: Decode<()> + Encode, C: Config>(alloc: Global, input: &[u8], out: &mut [u8], config: C) -> usize {
    put_outcome(out, decode_from_slice::<T, _>(alloc, input, config), config)
}

fn by_borrow<'a, T: BorrowDecode<&'a [u8], ()> + Encode, C: Config>(
    alloc: Global,
    input: &'a [u8],
    out: &mut [u8],
    config: C,
) -> usize {
    put_outcome(out, borrow_decode_from_slice::<T, _>(alloc, input, config), config)
}

fn by_stream<T: Decode<()> + Encode, C: Config>(
    alloc: Global,
    input: &[u8],
    out: &mut [u8],
    numbers: (usize, usize),
    config: C,
) -> usize {
    let mut stream = pieces_of(input, numbers.0, numbers.1);
    match decode_from_std_read::<T, _, _>(alloc, &mut stream, config) {
        Ok(value) => put_value(out, &value, input.len().wrapping_sub(stream.bytes.len()), config),
        Err(error) => put_decode_error(out, &error),
    }
}

""" + BY_BUFFER + BY_WINDOW + """
fn by_reader<T: Decode<()> + Encode, C: Config>(
    alloc: Global,
    input: &[u8],
    out: &mut [u8],
    config: C,
) -> usize {
    let mut reader = SliceReader::new(input);
    match decode_from_reader::<T, _, _>(alloc, &mut reader, config) {
        Ok(value) => put_value(out, &value, input.len().wrapping_sub(reader.bytes_left()), config),
        Err(error) => {
            let at = put_decode_error(out, &error);
            put_number(out, at, reader.bytes_left())
        }
    }
}

/// Encodes into a vector.
fn to_vector<T: Encode, C: Config>(alloc: Global, out: &mut [u8], value: &T, config: C) -> usize {
    match encode_to_vec(alloc, value, config) {
        Ok(bytes) => {
            let at = put_success(out, bytes.len());
            put(out, at, &bytes)
        }
        Err(error) => put_encode_error(out, &error),
    }
}

/// Encodes into a slice of some bytes, after the head.
fn to_slice<T: Encode, C: Config>(out: &mut [u8], value: &T, length: usize, config: C) -> usize {
    let rest = room(out, HEAD);
    let length = length.min(rest.len());
    match encode_into_slice(value, &mut rest[..length], config) {
        Ok(count) => put_success(out, count),
        Err(error) => put_encode_error(out, &error),
    }
}

/// Encodes into a stream, whose bytes stand after the head.
fn to_stream<T: Encode, C: Config>(out: &mut [u8], value: &T, numbers: (usize, usize), config: C) -> usize {
    let mut sink = Sink {
        room: room(out, HEAD),
        at: 0,
        most: numbers.0,
        left: numbers.1,
        calls: 0,
    };
    match encode_into_std_write(value, &mut sink, config) {
        Ok(count) => put_success(out, count),
        Err(error) => put_encode_error(out, &error),
    }
}

/// Counts.
fn to_count<T: Encode, C: Config>(out: &mut [u8], value: &T, config: C) -> usize {
    let mut counter = SizeWriter::default();
    match encode_into_writer(value, &mut counter, config) {
        Ok(()) => put_success(out, counter.bytes_written),
        Err(error) => put_encode_error(out, &error),
    }
}

"""

BOUNDS = {
    "both": "Decode<()> + BorrowDecode<&'a [u8], ()> + Encode",
    "owned": "Decode<()> + Encode",
    "lent": "BorrowDecode<&'a [u8], ()> + Encode",
}

EXPORT = """
#[unsafe(no_mangle)]
pub extern "C" fn NAME<'a>(alloc: Global, input: &'a [u8], out: &mut [u8], way: usize, first: usize, second: usize) -> usize {
    ask_GROUP::<TYPE>(alloc, input, out, way, (first, second))
}
"""


# how each call is made, of the result `decoded` or of the input
MADE = {
    "by_slice": "by_slice::<T, C>(alloc, input, out, config)",
    "by_borrow": "by_borrow::<T, C>(alloc, input, out, config)",
    "by_stream": "by_stream::<T, C>(alloc, input, out, numbers, config)",
    "by_buffer": "by_buffer::<T, C>(alloc, input, out, numbers, config)",
    "by_reader": "by_reader::<T, C>(alloc, input, out, config)",
    "by_window": "by_window::<T, C>(alloc, input, out, numbers, config)",
    "to_vector": "to_vector(alloc, out, &value, config)",
    "to_slice": "to_slice(out, &value, numbers.0, config)",
    "to_stream": "to_stream(out, &value, numbers, config)",
    "to_count": "to_count(out, &value, config)",
}


def picking(group, calls):
    """The function that makes one of these calls of a type of a group."""
    reads = [call for call in calls if call.startswith("by")]
    writes = [call for call in calls if call.startswith("to")]
    name = f"{group}_{'_'.join(str(kinds.CALLS[call]) for call in calls)}"
    arms = "".join(f"        {kinds.CALLS[call]} => {MADE[call]},\n" for call in reads)
    if writes:
        written = "".join(f"                {kinds.CALLS[call]} => {MADE[call]},\n" for call in writes)
        decode = "borrow_decode_from_slice" if group == "lent" else "decode_from_slice"
        arms += f"""        _ => match {decode}::<T, C>(alloc, input, config) {{
            Ok((value, _taken)) => match call {{
{written}                _ => 0,
            }},
            Err(error) => put_decode_error(out, &error),
        }},
"""
    else:
        arms += "        _ => 0,\n"
    return name, f"""
fn {name}<'a, T: {BOUNDS[group]}, C: Config>(
    alloc: Global,
    input: &'a [u8],
    out: &mut [u8],
    call: usize,
    numbers: (usize, usize),
    config: C,
) -> usize {{
    match call {{
{arms}    }}
}}
"""


def ask(group):
    """The function that picks the configuration, of a group of types, and those that pick the call."""
    pickings, arms = {}, ""
    for at, configuration in enumerate(kinds.CONFIGURATIONS):
        name, text = picking(group, configuration.calls_of(group))
        pickings[name] = text
        arms += f"        {at} => {name}::<T, _>(alloc, input, out, call, numbers, {configuration.text}),\n"
    return "".join(pickings.values()) + f"""
/// Makes a call under a configuration: 16 times the number of the call, and the configuration's.
fn ask_{group}<'a, T: {BOUNDS[group]}>(
    alloc: Global,
    input: &'a [u8],
    out: &mut [u8],
    way: usize,
    numbers: (usize, usize),
) -> usize {{
    let call = way / 16;
    match way % 16 {{
{arms}        _ => 0,
    }}
}}
"""


def crates_of(asked):
    """The crates that the text of these types uses."""
    return "bincode derived_types" if "derived_types::" in used([kind.type for kind in asked]) else "bincode"


def used(types):
    """The `use` lines of the names that stand in the types."""
    words = set("".join(c if c.isalnum() else " " for c in " ".join(types)).split())
    lines = ""
    for place, names in NAMES.items():
        named = sorted(set(names) & words)
        if named:
            lines += f"use {place}::{{{', '.join(named)}}};\n" if len(named) > 1 else f"use {place}::{named[0]};\n"
    return lines


def library(asked):
    """The text of a library of these types."""
    text = TOP.replace("USED\n", used([kind.type for kind in asked])) + ANSWERS
    groups = sorted({kind.group for kind in asked})
    text += CALLS + "".join(ask(group) for group in groups)
    for kind in asked:
        text += EXPORT.replace("NAME", f"ask_{kind.name}").replace("GROUP", kind.group).replace("TYPE", kind.type)
    return text



PROGRAM = """
/// A number of so many bytes from there on, the lowest first; 0 where there are fewer.
fn number_at(bytes: &[u8], at: usize, width: usize) -> usize {
    let mut number = 0usize;
    for byte in bytes.get(at..at.wrapping_add(width)).unwrap_or(&[]).iter().rev() {
        number = number.wrapping_mul(256).wrapping_add(*byte as usize);
    }
    number
}

fn hex_digit(half: u8) -> u8 {
    if half < 10 { half.wrapping_add(48) } else { half.wrapping_add(87) }
}

/// Asks of one call, which begins there, and adds a line where the answer is another than the one that stands with it. Answers where the next begins.
fn ask_at(alloc: Global, calls: &[u8], at: usize, room: &mut [u8], lines: &mut Vec<u8>) -> io::Result<usize> {
    let (kind, way) = (number_at(calls, at, 4), number_at(calls, at.wrapping_add(4), 4));
    let (first, second) = (number_at(calls, at.wrapping_add(8), 8), number_at(calls, at.wrapping_add(16), 8));
    let (length, expected) = (number_at(calls, at.wrapping_add(24), 4), number_at(calls, at.wrapping_add(28), 4));
    let begin = at.wrapping_add(32);
    let middle = begin.wrapping_add(length);
    let end = middle.wrapping_add(expected);
    let input = calls.get(begin..middle).unwrap_or(&[]);
    let wanted = calls.get(middle..end).unwrap_or(&[]);
    let writes = way / 16 == TO_SLICE || way / 16 == TO_STREAM;
    if writes {
        room[..HEAD].fill(0);
        room[HEAD..HEAD + 2 * length + 24].fill(165);
    }
    let count = ask_any(kind, alloc, input, room, way, first, second);
    let count = if writes { HEAD + 2 * length + 24 } else { count };
    let answer = &room[..count];
    if answer != wanted {
        lines.extend_from_slice(format!(in alloc; "{at} ")?.as_bytes())?;
        for byte in answer {
            lines.push(hex_digit(*byte / 16))?;
            lines.push(hex_digit(*byte % 16))?;
        }
        lines.push(10)?;
    }
    Ok(end)
}

fn main(rt: HostRuntime) -> io::Result<()> {
    let alloc = rt.alloc();
    let mut calls = Vec::new(alloc);
    rt.stdin().read_to_end(&mut calls)?;
    let mut room = vec![in alloc; 0u8; 65536]?;
    let mut lines = Vec::new(alloc);
    let mut at = 0;
    while at < calls.len() {
        at = ask_at(alloc, &calls, at, &mut room, &mut lines)?;
    }
    rt.stdout().write_all(&lines)
}
"""


def program(numbered):
    """A program that makes calls which it reads, each with the answer that is wanted, and tells those that are answered otherwise: of these types,
    by their numbers. It is run and never proved."""
    text = library(list(numbered.values())).replace("pub extern \"C\" fn", "fn").replace("#[unsafe(no_mangle)]\n", "")
    arms = "".join(f"        {at} => ask_{kind.name}(alloc, input, out, way, first, second),\n" for at, kind in numbered.items())
    return text + f"""
/// Asks of the type of a number.
fn ask_any(kind: usize, alloc: Global, input: &[u8], out: &mut [u8], way: usize, first: usize, second: usize) -> usize {{
    match kind {{
{arms}        _ => 0,
    }}
}}
""" + PROGRAM.replace("TO_SLICE", str(kinds.CALLS["to_slice"])).replace("TO_STREAM", str(kinds.CALLS["to_stream"]))
