"""The rows: each is a loop around one call for one type, written once and used as Rattle (over the port) and as Rust (over the original).

A row gets the bytes of a list of values, and room for as many. It reads the values once, makes its call for each of them in so many
turns, and leaves the bytes of what it made in the room: by these the two sides are compared.
"""

from typing import NamedTuple

CONFIGURATIONS = {
    "v": "config::standard()",
    "f": "config::standard().with_fixed_int_encoding()",
    "vl": "config::standard().with_limit::<67108864>()",
}

# Each loop is generic over the type and the configuration: it is proved once, and compiled for the type of each row. PARAMETERS are those of
# a row, and LENT is the bound of a type that borrows its bytes, which the two sides write in two ways.
PARAMETERS = "alloc: Global, input: &[u8], out: &mut [u8], turns: usize"

# encode_into_slice
WRITE = """
fn write<T: Decode<()> + Encode, C: Config>(PARAMETERS, config: C) -> usize {
    let Ok((values, _)) = decode_from_slice::<Vec<T>, _>(alloc, input, config) else {
        return 0;
    };
    let mut at = 0usize;
    for _turn in 0..turns {
        at = 0;
        for value in &values {
            let Ok(count) = encode_into_slice(value, room(out, at), config) else {
                return 0;
            };
            at = at.wrapping_add(count);
        }
    }
    at
}
"""

# encode_to_vec: the last vector of each turn is kept, and in the end all are made once more
VECTOR = """
fn vector<T: Decode<()> + Encode, C: Config>(PARAMETERS, config: C) -> usize {
    let Ok((values, _)) = decode_from_slice::<Vec<T>, _>(alloc, input, config) else {
        return 0;
    };
    let Ok(first) = encode_to_vec(alloc, &values, config) else {
        return 0;
    };
    let mut last = first;
    for _turn in 0..turns {
        for value in &values {
            let Ok(bytes) = encode_to_vec(alloc, value, config) else {
                return 0;
            };
            last = bytes;
        }
    }
    let mut at = put(out, 0, &last);
    for value in &values {
        let Ok(bytes) = encode_to_vec(alloc, value, config) else {
            return 0;
        };
        at = put(out, at, &bytes);
    }
    at
}
"""

# encode_into_buf_write (the original: encode_into_std_write), through a buffer over the room
STREAM = """
fn stream<T: Decode<()> + Encode, C: Config>(PARAMETERS, config: C) -> usize {
    let Ok((values, _)) = decode_from_slice::<Vec<T>, _>(alloc, input, config) else {
        return 0;
    };
    let mut at = 0usize;
    for _turn in 0..turns {
        at = 0;
        let Ok(mut stream) = writer(alloc, room(out, 0)) else {
            return 0;
        };
        for value in &values {
            let Ok(count) = encode_into_buf_write(value, &mut stream, config) else {
                return 0;
            };
            at = at.wrapping_add(count);
        }
        if stream.flush().is_err() {
            return 0;
        }
    }
    at
}
"""

# encode_into_writer to a BlockWriter that is kept, before the room; the original's is a buffer as above
BLOCK = """
fn block<T: Decode<()> + Encode, C: Config>(PARAMETERS, config: C) -> usize {
    let Ok((values, _)) = decode_from_slice::<Vec<T>, _>(alloc, input, config) else {
        return 0;
    };
    let mut at = 0usize;
    for _turn in 0..turns {
        let mut target = room(out, 0);
        let mut stream = BlockWriter::new(&mut target);
        for value in &values {
            if encode_into_writer(value, &mut stream, config).is_err() {
                return 0;
            }
        }
        at = stream.bytes_written();
        if stream.flush().is_err() {
            return 0;
        }
    }
    at
}
"""

# Of the loops that read: all values are read once, TURN reads them again from where the first begins, and the last ones are written.
READING = """
fn NAME<T: Decode<()> + Encode, C: Config>(PARAMETERS, config: C) -> usize {
    let Ok((values, _)) = decode_from_slice::<Vec<T>, _>(alloc, input, config) else {
        return 0;
    };
    let mut values = values;
    let Ok((_, start)) = decode_from_slice::<u64, _>(alloc, input, config) else {
        return 0;
    };
    for _turn in 0..turns {
TURN
    }
    match encode_into_slice(&values, out, config) {
        Ok(count) => count,
        Err(_) => 0,
    }
}
"""


def reading(name, turn):
    return READING.replace("NAME", name).replace("\nTURN", turn.rstrip())


# decode_from_slice
READ = reading(
    "read",
    """
        let mut at = start;
        for slot in values.iter_mut() {
            let Ok((value, taken)) = decode_from_slice::<T, _>(alloc, rest(input, at), config) else {
                return 0;
            };
            *slot = value;
            at = at.wrapping_add(taken);
        }
""",
)

# borrow_decode_from_slice
BORROW = (
    READ.replace("fn read<T: Decode<()>", "fn borrow<'a, T: LENT")
    .replace("PARAMETERS", PARAMETERS.replace("&[u8]", "&'a [u8]"))
    .replace("decode_from_slice::<Vec<T>", "borrow_decode_from_slice::<Vec<T>")
    .replace("decode_from_slice::<T", "borrow_decode_from_slice::<T")
)

# decode_from_std_read, from a buffer before the bytes
STD_READ = reading(
    "std_read",
    """
        let Ok(mut stream) = reader_of(alloc, rest(input, start)) else {
            return 0;
        };
        for slot in values.iter_mut() {
            let Ok(value) = decode_from_std_read::<T, _, _>(alloc, &mut stream, config) else {
                return 0;
            };
            *slot = value;
        }
""",
)

# decode_from_reader, from the same
READER = STD_READ.replace("fn std_read", "fn reader").replace("decode_from_std_read", "decode_from_reader")

# decode_from_buf_read, from the same; the original's is decode_from_std_read
BUF_READ = STD_READ.replace("fn std_read", "fn buf_read").replace("decode_from_std_read", "decode_from_buf_read")

LOOPS = {
    "write": WRITE,
    "vector": VECTOR,
    "read": READ,
    "borrow": BORROW,
    "stream": STREAM,
    "block": BLOCK,
    "std_read": STD_READ,
    "buf_read": BUF_READ,
    "reader": READER,
}

# the port's libraries, which are proved one by one, and the calls of each
LIBRARIES = {
    "bench_write": ("write",),
    "bench_vector": ("vector",),
    "bench_read": ("read",),
    "bench_others": ("borrow", "stream", "block", "std_read", "buf_read", "reader"),
}

HELPERS = """
/// What of the bytes begins there.
fn rest(input: &[u8], at: usize) -> &[u8] {
    match input.get(at..) {
        Some(rest) => rest,
        None => input,
    }
}

/// The room that begins there.
fn room(out: &mut [u8], at: usize) -> &mut [u8] {
    if at <= out.len() { &mut out[at..] } else { out }
}

/// Puts bytes into the room there, and answers where they end.
fn put(out: &mut [u8], at: usize, bytes: &[u8]) -> usize {
    let room = room(out, at);
    if bytes.len() <= room.len() {
        room[..bytes.len()].copy_from_slice(bytes);
    }
    at.wrapping_add(bytes.len())
}
"""

NUMBERS = ", ".join(["u32"] * 16)
CHARACTERS = ", ".join(["char"] * 8)

# what is read and written; the kinds of values, or how many items one value has
KINDS = ("one byte", "two bytes", "wide", "mixed")
COUNTS = (1, 16, 1000, 100000)
PLAIN = {
    "u32": "u32",
    "u64": "u64",
    "i64": "i64",
    "numbers": f"({NUMBERS})",
    "mixed": "(u8, u32, u64, bool, i32, char, Option<u16>)",
    "choices": "(Option<u32>, Result<u16, u64>, Option<Option<u8>>, Bound<u32>)",
    "characters": f"({CHARACTERS})",
    "array_u32": "[u32; 256]",
    "array_u64": "[u64; 256]",
    "array_u8": "[u8; 1024]",
}
HELD = {
    "list_u32": "Vec<u32>",
    "list_u64": "Vec<u64>",
    "list_f64": "Vec<f64>",
    "bytes": "Vec<u8>",
    "text": "String",
    "map": "BTreeMap<u32, u64>",
    "hashed": "HashMap<u32, u64>",
    "pairs": "Vec<(u32, String)>",
    "lists": "Vec<Vec<u16>>",
    "boxes": "Vec<Option<Box<(u8, u64)>>>",
}
LENT = {
    "texts": "Vec<&str>",
    "piece": "&[u8]",
    "record": "(&str, u32, &str, u64, u16)",
}
STREAMED = {
    "records": "Vec<(u32, u16, u64)>",
}
# many calls in a row, one for each small value, also over streams
SINGLE = {
    "record": "(u32, u16, u64)",
}
# these have no numbers, or are written as another row's type is, where numbers are fixed
SAME_WHEN_FIXED = ("i64", "characters", "array_u8", "bytes", "text")
# in these all values are of one kind
ONE_KIND = ("array_u8",)


class Row(NamedTuple):
    group: str
    way: str
    configuration: str
    shape: str
    type: str

    @property
    def name(self):
        return f"{self.configuration}_{self.way}_{self.shape}"

    @property
    def body(self):
        return f"{self.way}::<{self.type}, _>(alloc, input, out, turns, {CONFIGURATIONS[self.configuration]})"


def rows():
    groups = (
        ("plain", PLAIN, ("write", "read")),
        ("held", HELD, ("write", "read", "vector")),
        ("lent", LENT, ("borrow",)),
        ("streamed", STREAMED, ("stream", "block", "std_read", "buf_read", "reader")),
        ("single", SINGLE, ("write", "read", "stream", "block", "std_read", "buf_read", "reader")),
    )
    for group, types, ways in groups:
        for way in ways:
            for configuration in CONFIGURATIONS:
                # a limit is kept by what reads alone
                if configuration == "vl" and way in ("write", "vector", "stream", "block"):
                    continue
                for shape, of in types.items():
                    if configuration == "f" and shape in SAME_WHEN_FIXED:
                        continue
                    # a hashed map is written in any order, so its bytes are compared as those of what was read alone
                    if shape == "hashed" and way != "read":
                        continue
                    yield Row(group, way, configuration, shape, of)


def cases_of(row):
    """The kinds of values of a row, or how many items they have."""
    if row.group not in ("plain", "single"):
        return COUNTS
    return KINDS[-1:] if row.shape in ONE_KIND or row.configuration == "f" else KINDS


def loops_of(built, lent):
    """The loops of these rows, with that bound for what borrows its bytes."""
    ways = dict.fromkeys(row.way for row in built)
    return "".join(LOOPS[way].replace("PARAMETERS", PARAMETERS).replace("LENT", lent) for way in ways)


def rattle(built):
    """The port's libraries, by name: each has one function a row."""
    return {library: rattle_of([row for row in built if row.way in ways])
            for library, ways in LIBRARIES.items() if any(row.way in ways for row in built)}


def crates_of(text):
    """The repository's crates that a library of the port takes."""
    return [name for name in ("bincode", "bincode_blocks") if f"use {name}::" in text]


def rattle_of(built):
    blocks = "use bincode_blocks::BlockWriter;\n" if any(row.way == "block" for row in built) else ""
    text = f"""//! The port's side of some of the rows of bench/rows.py.
#![tactic(auto)]

use bincode::config::Config;
use bincode::{{BorrowDecode, Decode, Encode, borrow_decode_from_slice, config, decode_from_reader, decode_from_slice}};
use bincode::{{decode_from_buf_read, decode_from_std_read, encode_into_buf_write, encode_into_slice, encode_into_writer, encode_to_vec}};
{blocks}use std::alloc::Global;
use std::collections::{{BTreeMap, HashMap}};
use std::io;
use std::io::{{BufReader, BufWriter, Write}};
use std::ops::Bound;
{HELPERS}
fn writer(alloc: Global, out: &mut [u8]) -> io::Result<BufWriter<&mut [u8]>> {{
    BufWriter::new(alloc, out)
}}

fn reader_of(alloc: Global, input: &[u8]) -> io::Result<BufReader<&[u8]>> {{
    BufReader::new(alloc, input)
}}
{loops_of(built, "BorrowDecode<&'a [u8], ()>")}"""
    for row in built:
        text += f"""
#[unsafe(no_mangle)]
pub extern "C" fn {row.name}({PARAMETERS}) -> usize {{
    {row.body}
}}
"""
    return text


def rust(built):
    """The original's side, and the table of both."""
    text = f"""// Both sides of the rows of bench/rows.py.
mod original {{
    use crate::calls::*;
    use std::collections::{{BTreeMap, HashMap}};
    use std::io::Write;
    use std::ops::Bound;
{HELPERS}{loops_of(built, "BorrowDecode<'a, ()>")}"""
    for row in built:
        text += f"""
#[inline(never)]
pub fn {row.name}({PARAMETERS}) -> usize {{
    {row.body}
}}
"""
    text += """}

unsafe extern "C" {
"""
    for row in built:
        text += f"    fn {row.name}(input: *const u8, length: usize, out: *mut u8, room: usize, turns: usize) -> usize;\n"
    text += "}\n\npub const ROWS: &[Row] = &[\n"
    for row in built:
        owned = row.type.replace("&str", "String").replace("&[u8]", "Vec<u8>")
        fixed = row.configuration == "f"
        cases = {COUNTS: "COUNTS", KINDS: "KINDS"}.get(cases_of(row), "ONE_CASE")
        same = "same_maps" if row.shape == "hashed" else "same_bytes"
        text += (f'    Row {{ way: "{row.way}", configuration: "{row.configuration}", shape: "{row.shape}", cases: {cases}, '
                 f"bytes: bytes_of::<{owned}, {str(fixed).lower()}>, same: {same}, original: original::{row.name}, port: {row.name} }},\n")
    return text + "];\n"


if __name__ == "__main__":
    for row in rows():
        print(row.name)
