//! The types and both sides of them, and one call of a side.
use crate::answer::Answer;
use crate::shape::{Shape, Shaped};
use crate::walk::Setting;
#[allow(unused_imports)]
use original::calls::*;
use original::table;

type Original = for<'a> fn(&'a [u8], &mut [u8], usize, Numbers) -> usize;
pub type Port =
    unsafe extern "C" fn(*const u8, usize, *mut u8, usize, usize, usize, usize) -> usize;

#[derive(Clone, Copy, PartialEq)]
pub enum Group {
    Both,
    Owned,
    Lent,
}

pub struct Row {
    pub name: &'static str,
    pub text: &'static str,
    pub group: Group,
    shape: fn() -> Shape,
    original: Original,
    /// Missing where the port is asked elsewhere.
    pub port: Option<Port>,
}

pub struct Configuration {
    pub name: &'static str,
    pub setting: usize,
    pub limit: Option<u64>,
    pub calls: &'static [usize],
}

include!(concat!(env!("BENCH_WORK"), "/rows.rs"));

pub const SETTINGS: [Setting; 4] = [
    Setting {
        is_big: false,
        is_fixed: false,
    },
    Setting {
        is_big: true,
        is_fixed: false,
    },
    Setting {
        is_big: false,
        is_fixed: true,
    },
    Setting {
        is_big: true,
        is_fixed: true,
    },
];

pub const BY_SLICE: usize = 0;
pub const BY_BORROW: usize = 1;
pub const BY_STREAM: usize = 2;
pub const BY_BUFFER: usize = 3;
pub const BY_READER: usize = 4;
pub const BY_WINDOW: usize = 5;
pub const TO_VECTOR: usize = 6;
pub const TO_SLICE: usize = 7;
pub const TO_STREAM: usize = 8;
pub const TO_COUNT: usize = 9;

pub const CALLS: [&str; 10] = [
    "decode_from_slice",
    "borrow_decode_from_slice",
    "decode_from_std_read",
    "decode_from_reader of a BufReader",
    "decode_from_reader of a SliceReader",
    "decode_from_buf_read",
    "encode_to_vec",
    "encode_into_slice",
    "encode_into_std_write",
    "encode_into_writer of a SizeWriter",
];

/// A type with its shape.
pub struct Kind {
    pub row: &'static Row,
    /// Its place among the rows.
    pub place: usize,
    pub shape: Shape,
}

impl Kind {
    pub fn of(place: usize) -> Kind {
        let row = &ROWS[place];
        Kind {
            row,
            place,
            shape: (row.shape)(),
        }
    }

    pub fn all() -> Vec<Kind> {
        (0..ROWS.len()).map(Kind::of).collect()
    }

    /// Whether the type has the call under a configuration. One that is read borrowed alone is read so under each.
    pub fn has(&self, call: usize, configuration: usize) -> bool {
        let is_made = CONFIGURATIONS[configuration].calls.contains(&call);
        match (self.row.group, call) {
            (Group::Lent, BY_BORROW) => true,
            (Group::Lent, BY_SLICE | BY_STREAM | BY_BUFFER | BY_READER | BY_WINDOW)
            | (Group::Owned, BY_BORROW) => false,
            _ => is_made,
        }
    }

    /// The call that reads a value from a slice.
    pub fn reading(&self) -> usize {
        if self.row.group == Group::Lent {
            BY_BORROW
        } else {
            BY_SLICE
        }
    }
}

/// One call of a type under a configuration, with two numbers: for streams how many bytes a call gives or takes, and after how many it breaks
/// (for a buffer: its size); for a slice how long it is.
#[derive(Clone, Copy)]
pub struct Call<'k> {
    pub kind: &'k Kind,
    pub call: usize,
    pub configuration: usize,
    pub numbers: Numbers,
}

#[derive(Clone, Copy, PartialEq)]
pub enum Side {
    Original,
    Port,
}

/// What stands in a room before a call.
pub const FILL: u8 = 0xa5;

impl Call<'_> {
    pub fn setting(&self) -> Setting {
        SETTINGS[CONFIGURATIONS[self.configuration].setting]
    }

    pub fn limit(&self) -> Option<u64> {
        CONFIGURATIONS[self.configuration].limit
    }

    /// What of the input the call can read: a stream breaks after some bytes.
    pub fn seen<'i>(&self, input: &'i [u8]) -> &'i [u8] {
        let most = if self.call == BY_STREAM {
            self.numbers.1
        } else {
            usize::MAX
        };
        &input[..input.len().min(most)]
    }

    /// Whether the call writes to what stands after the head of the room.
    pub fn writes(&self) -> bool {
        self.call == TO_SLICE || self.call == TO_STREAM
    }

    /// How many bytes of the room a call may write to, after the head.
    pub fn span(&self, input: &[u8]) -> usize {
        2 * input.len() + 24
    }

    /// Makes the call of a side, and answers how many bytes of the room are the answer: of one that writes, the head and what it may write to.
    pub fn make(&self, side: Side, input: &[u8], room: &mut [u8]) -> usize {
        let way = 16 * self.call + self.configuration;
        if self.writes() {
            room[..HEAD].fill(0);
            room[HEAD..HEAD + self.span(input)].fill(FILL);
        }
        let count = match (side, self.kind.row.port) {
            (Side::Original, _) => (self.kind.row.original)(input, room, way, self.numbers),
            // SAFETY: both are slices, and the function keeps neither.
            (Side::Port, Some(port)) => unsafe {
                port(
                    input.as_ptr(),
                    input.len(),
                    room.as_mut_ptr(),
                    room.len(),
                    way,
                    self.numbers.0,
                    self.numbers.1,
                )
            },
            (Side::Port, None) => 0,
        };
        if self.writes() {
            HEAD + self.span(input)
        } else {
            count
        }
    }

    /// What the call of a side answers.
    pub fn ask(&self, side: Side, input: &[u8]) -> Answer {
        let mut room = vec![0; ROOM];
        let count = self.make(side, input, &mut room);
        Answer::of(&room[..count.min(ROOM)])
    }
}

/// How many bytes a room has.
pub const ROOM: usize = 1 << 16;
