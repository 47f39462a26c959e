//! The differences that docs/DIFFERENCES.md names: each is told by what the two answers are, and by the row that it stands for.
use crate::answer::{
    Answer, Fault, INVALID_INTEGER_TYPE, IO, LIMIT_EXCEEDED, UNEXPECTED_OF_LIST,
    UNEXPECTED_VARIANT, UNLISTED_VARIANT,
};
use crate::sides::{CONFIGURATIONS, Call, Side, TO_VECTOR};
use crate::walk::{BETWEEN, Counting, ORIGINAL, PORT, Walk, form_of, with_one_nan};
use original::calls::HEAD;

#[derive(Clone, Copy, Debug, PartialEq, Eq, PartialOrd, Ord)]
pub enum Reason {
    Claims,
    Octets,
    Names,
    Left,
    Missing,
    TypeName,
    Listed,
    Order,
    Nan,
    Memory,
}

impl Reason {
    /// What docs/DIFFERENCES.md says of it.
    pub fn row(self) -> &'static str {
        match self {
            Reason::Claims => "`size_of::<T>()` in claims is `T::claim_size()`",
            Reason::Octets => {
                "the octets of an address are charged before they are read, 4 and 16 bytes"
            }
            Reason::Names => {
                "`expected` of `InvalidIntegerType`: a variable `u64` through the path that peeks names `U32`, and a `u128` `Usize`; here it is each type's own name"
            }
            Reason::Left => {
                "a refused tag over a slice: the crate does not take it where as many bytes are left as the longest encoding has; here it is taken"
            }
            Reason::Missing => {
                "`additional` of an `Io` is what of the length is missing, and not the length that was asked for"
            }
            Reason::TypeName => {
                "the text of `type_name` is the bare name; beside a tag there is a `TypeName`, of at most 10 bytes"
            }
            Reason::Listed => {
                "`UnexpectedVariant { found, type_name, allowed }` is two variants, one of them `UnlistedVariant` for a list"
            }
            Reason::Nan => {
                "a NaN of `f32` and `f64` is one value: each of its bit patterns decodes to it, and it is written as `0x7fc00000` or `0x7ff8000000000000`"
            }
            Reason::Memory => {
                "`EncodeError::Memory` and `DecodeError::Memory` are new: in the crate memory that is wanting aborts the program"
            }
            Reason::Order => {
                "`HashMap<K, V>` and `HashSet<T>` take every hasher; and docs/FORMAT.md, section 6: hashed maps and sets and heaps are written in some order"
            }
        }
    }
}

/// Both sides' rooms after a call, and how many bytes of each are the answer.
pub struct Rooms<'r> {
    pub original: &'r [u8],
    pub port: &'r [u8],
    pub counts: (usize, usize),
}

impl Rooms<'_> {
    pub fn answers(&self) -> (Answer, Answer) {
        (
            answer_of(self.original, self.counts.0),
            answer_of(self.port, self.counts.1),
        )
    }

    /// Whether both are the same.
    pub fn agree(&self) -> bool {
        let (one, other) = self.counts;
        one == other && one <= self.original.len() && self.original[..one] == self.port[..other]
    }
}

fn answer_of(room: &[u8], count: usize) -> Answer {
    room.get(..count).map_or(Answer::Unclear, Answer::of)
}

/// The last name of a path without its parameters, cut to what a name of a type holds.
fn bare(name: &str) -> &str {
    let path = name.split('<').next().unwrap_or("");
    let last = path.rsplit("::").next().unwrap_or("");
    &last[..last.len().min(10)]
}

/// Whether the original's `expected` is that of its peeking path, and the port's the type's own.
fn is_peeked(original: u64, port: u64) -> bool {
    // U32 for U64, I32 for I64, Usize for U128, Isize for I128
    matches!((original, port), (2, 3) | (8, 9) | (5, 4) | (11, 10))
}

/// Why two errors differ, field by field.
fn of_faults(one: &Fault, other: &Fault) -> Option<Vec<Reason>> {
    let mut reasons = vec![];
    let (same, texts) = (one.numbers == other.numbers, one.text == other.text);
    match (one.kind, other.kind) {
        (UNEXPECTED_OF_LIST, UNLISTED_VARIANT) if same => {
            reasons.push(Reason::Listed);
            if !texts {
                reasons.push(Reason::TypeName);
            }
        }
        (INVALID_INTEGER_TYPE, INVALID_INTEGER_TYPE) if !same => {
            let named = one.numbers[1..] == other.numbers[1..]
                && is_peeked(one.numbers[0], other.numbers[0]);
            reasons.push(named.then_some(Reason::Names)?);
        }
        (UNEXPECTED_VARIANT, UNEXPECTED_VARIANT) if same && !texts => {
            reasons.push(Reason::TypeName)
        }
        (IO, IO) if !same => {
            let (asked, missing) = (one.numbers[0], other.numbers[0]);
            let is_less = one.numbers[1..] == other.numbers[1..] && 0 < missing && missing < asked;
            reasons.push(is_less.then_some(Reason::Missing)?);
        }
        (one_kind, other_kind) if one_kind == other_kind && same && texts => {}
        _ => return None,
    }
    if reasons.contains(&Reason::TypeName) && bare(&one.text) != other.text {
        return None;
    }
    Some(reasons)
}

/// Whether a limit is passed, as that is counted.
fn passes(call: &Call<'_>, input: &[u8], counting: Counting) -> bool {
    let mut walk = Walk::new(call.seen(input), call.setting(), counting, call.limit());
    walk.walk(&call.kind.shape) == Err(LIMIT_EXCEEDED)
}

/// Whether an answer under a limit is that without one, where the call is made without one too.
fn is_unlimited(call: &Call<'_>, side: Side, input: &[u8], answer: &Answer) -> bool {
    let configuration = CONFIGURATIONS[call.configuration].setting;
    let unlimited = Call {
        configuration,
        ..*call
    };
    let is_asked = side == Side::Original || call.kind.row.port.is_some();
    !is_asked || !call.kind.has(call.call, configuration) || unlimited.ask(side, input) == *answer
}

/// Of a limit that one side passes: each side passes it as its own claims and charges say, and else answers what it does without one.
fn of_limit(call: &Call<'_>, input: &[u8], one: &Answer, other: &Answer) -> Option<Vec<Reason>> {
    let limited = [one, other].map(|answer| answer.kind() == Some(LIMIT_EXCEEDED));
    let counted = [ORIGINAL, PORT].map(|counting| passes(call, input, counting));
    let rest_agrees = (limited[0] || is_unlimited(call, Side::Original, input, one))
        && (limited[1] || is_unlimited(call, Side::Port, input, other));
    if call.limit().is_none() || limited != counted || !rest_agrees {
        return None;
    }
    let by_octets = passes(call, input, BETWEEN) == limited[1];
    Some(vec![if by_octets {
        Reason::Octets
    } else {
        Reason::Claims
    }])
}

/// Whether both hold the same values in another order.
fn is_reordered(call: &Call<'_>, one: &[u8], other: &[u8]) -> bool {
    let form = |bytes| form_of(&call.kind.shape, call.setting(), bytes);
    call.kind.shape.has_bag() && form(one).is_some() && form(one) == form(other)
}

/// Why two encodings of a value differ: the port's has its own bits for each NaN of the original's, or the items of bags in another order.
fn of_values(call: &Call<'_>, one: &[u8], other: &[u8]) -> Option<Vec<Reason>> {
    let with_one_nan = |bytes| with_one_nan(&call.kind.shape, call.setting(), bytes);
    let expected = with_one_nan(one)?;
    let mut reasons = vec![];
    if expected != one {
        reasons.push(Reason::Nan);
    }
    if expected != other {
        let is_order = with_one_nan(other)? == other && is_reordered(call, &expected, other);
        reasons.push(is_order.then_some(Reason::Order)?);
    }
    (!reasons.is_empty()).then_some(reasons)
}

/// Whether rooms hold as much of the original's encoding and of the same with the port's NaNs: a byte that differs has to be that byte of each.
fn is_nan_in_part(call: &Call<'_>, input: &[u8], one: &[u8], other: &[u8]) -> bool {
    let written = Call {
        call: TO_VECTOR,
        ..*call
    };
    let Answer::Fine(_, whole) = written.ask(Side::Original, input) else {
        return false;
    };
    let Some(expected) = with_one_nan(&call.kind.shape, call.setting(), &whole) else {
        return false;
    };
    let is_byte = |at: usize, one: u8, other: u8| {
        whole.get(at) == Some(&one) && expected.get(at) == Some(&other)
    };
    let mut pairs = one.iter().zip(other).enumerate();
    pairs.all(|(at, (one, other))| one == other || is_byte(at, *one, *other))
}

/// Of encodings into a room: the same values, if they are whole; else as much of each.
fn of_rooms(
    call: &Call<'_>,
    input: &[u8],
    rooms: &Rooms<'_>,
    count: Option<u64>,
) -> Option<Vec<Reason>> {
    let held = [rooms.original, rooms.port].map(|room| &room[HEAD..HEAD + call.span(input)]);
    let Some(count) = count else {
        let reason = if call.kind.shape.has_bag() {
            Reason::Order
        } else {
            is_nan_in_part(call, input, held[0], held[1]).then_some(Reason::Nan)?
        };
        return Some(vec![reason]);
    };
    let (one, rest) = held[0].split_at_checked(count as usize)?;
    let (other, others_rest) = held[1].split_at_checked(count as usize)?;
    if rest == others_rest {
        of_values(call, one, other)
    } else {
        None
    }
}

/// Why two answers of a call that writes to a room differ, if docs/DIFFERENCES.md says so.
fn explain_writing(call: &Call<'_>, input: &[u8], rooms: &Rooms<'_>) -> Option<Vec<Reason>> {
    match rooms.answers() {
        (Answer::Fine(one, _), Answer::Fine(other, _)) if one == other => {
            of_rooms(call, input, rooms, Some(one))
        }
        (Answer::Failed(one, _), Answer::Failed(other, _)) => {
            let is_same = one.kind == other.kind && (one == other || call.kind.shape.has_bag());
            if is_same {
                of_rooms(call, input, rooms, None)
            } else {
                None
            }
        }
        _ => None,
    }
}

/// Why two answers of another call differ.
pub fn explain_answers(
    call: &Call<'_>,
    input: &[u8],
    one: &Answer,
    other: &Answer,
) -> Option<Vec<Reason>> {
    let is_limited = |answer: &Answer| answer.kind() == Some(LIMIT_EXCEEDED);
    match (one, other) {
        (Answer::Fine(count, bytes), Answer::Fine(others_count, others))
            if count == others_count =>
        {
            of_values(call, bytes, others)
        }
        (one, other) if is_limited(one) != is_limited(other) => of_limit(call, input, one, other),
        (Answer::Failed(one, left), Answer::Failed(other, others_left)) => {
            let mut reasons = of_faults(one, other)?;
            if left != others_left {
                let is_tag =
                    one.kind == INVALID_INTEGER_TYPE && *left == others_left.map(|left| left + 1);
                reasons.push(is_tag.then_some(Reason::Left)?);
            }
            Some(reasons)
        }
        _ => None,
    }
}

/// Why two answers differ, if docs/DIFFERENCES.md says so.
pub fn explain(call: &Call<'_>, input: &[u8], rooms: &Rooms<'_>) -> Option<Vec<Reason>> {
    if call.writes() {
        return explain_writing(call, input, rooms);
    }
    let (one, other) = rooms.answers();
    explain_answers(call, input, &one, &other)
}
