//! Values of every type of the rows, the same in each run.
use bincode::{Encode, config};
use std::array;
use std::collections::{BTreeMap, HashMap};
use std::ops::Bound;

/// How the values of a row are drawn.
#[derive(Clone, Copy)]
pub enum Kind {
    /// Numbers below 251, letters of one byte.
    OneByte,
    /// Numbers and letters of two bytes.
    TwoBytes,
    /// Numbers of all bytes of their type, letters of four.
    Wide,
    /// Every width by chance.
    Mixed,
}

/// A xorshift generator.
pub struct Random(u64);

impl Random {
    fn next(&mut self) -> u64 {
        self.0 ^= self.0 << 13;
        self.0 ^= self.0 >> 7;
        self.0 ^= self.0 << 17;
        self.0.wrapping_mul(0x2545_F491_4F6C_DD1D)
    }

    fn below(&mut self, end: usize) -> usize {
        (self.next() >> 32) as usize % end
    }

    fn flip(&mut self) -> bool {
        self.below(2) == 0
    }

    /// Whether a choice of two falls on the first. Where values are of one kind, so are the choices.
    fn choose(&mut self, kind: Kind) -> bool {
        matches!(kind, Kind::OneByte | Kind::Wide) || self.flip()
    }

    /// A number of at most so many bits.
    fn number(&mut self, kind: Kind, bits: u32) -> u64 {
        let drawn = self.next() >> (64 - bits);
        match kind {
            Kind::OneByte => drawn % 251,
            Kind::TwoBytes => 256 + drawn % 60_000,
            Kind::Wide => drawn | 1 << (bits - 1),
            Kind::Mixed => {
                let width = [8, 8, 8, 16, 32, 64][self.below(6)].min(bits);
                drawn >> (bits - width)
            }
        }
    }
}

/// A type of which values are drawn.
pub trait Drawn {
    /// A value; of what holds items, one with so many.
    fn drawn(kind: Kind, items: usize, random: &mut Random) -> Self;

    /// How many items a value has where it stands in another one.
    fn items_inside(_random: &mut Random) -> usize {
        0
    }
}

fn inside<T: Drawn>(kind: Kind, random: &mut Random) -> T {
    let items = T::items_inside(random);
    T::drawn(kind, items, random)
}

impl Drawn for u8 {
    fn drawn(_kind: Kind, _items: usize, random: &mut Random) -> u8 {
        random.next() as u8
    }
}

impl Drawn for u16 {
    fn drawn(kind: Kind, _items: usize, random: &mut Random) -> u16 {
        random.number(kind, 16) as u16
    }
}

impl Drawn for u32 {
    fn drawn(kind: Kind, _items: usize, random: &mut Random) -> u32 {
        random.number(kind, 32) as u32
    }
}

impl Drawn for u64 {
    fn drawn(kind: Kind, _items: usize, random: &mut Random) -> u64 {
        random.number(kind, 64)
    }
}

/// Signed numbers are drawn by the unsigned ones that stand for them.
fn signed(unsigned: u64) -> i64 {
    (unsigned >> 1) as i64 ^ -((unsigned & 1) as i64)
}

impl Drawn for i32 {
    fn drawn(kind: Kind, _items: usize, random: &mut Random) -> i32 {
        signed(random.number(kind, 32)) as i32
    }
}

impl Drawn for i64 {
    fn drawn(kind: Kind, _items: usize, random: &mut Random) -> i64 {
        signed(random.number(kind, 64))
    }
}

/// Of any bits but those of a NaN, whose bits the port does not keep.
impl Drawn for f64 {
    fn drawn(kind: Kind, items: usize, random: &mut Random) -> f64 {
        let drawn = f64::from_bits(random.next());
        if drawn.is_nan() {
            f64::drawn(kind, items, random)
        } else {
            drawn
        }
    }
}

impl Drawn for bool {
    fn drawn(_kind: Kind, _items: usize, random: &mut Random) -> bool {
        random.flip()
    }
}

impl Drawn for char {
    fn drawn(kind: Kind, _items: usize, random: &mut Random) -> char {
        let (first, count) = match kind {
            Kind::OneByte => ('a', 26),
            Kind::TwoBytes => ('\u{C0}', 1024),
            Kind::Wide => ('\u{1F600}', 64),
            Kind::Mixed => return ['a', 'e', 'x', 'é', '€', '😀'][random.below(6)],
        };
        char::from_u32(first as u32 + random.below(count) as u32).unwrap()
    }
}

impl Drawn for String {
    fn drawn(_kind: Kind, items: usize, random: &mut Random) -> String {
        let mut text = String::new();
        while text.len() < items {
            let fits = text.len() + 2 <= items;
            text.push(if fits && random.below(16) == 0 {
                'é'
            } else {
                inside(Kind::OneByte, random)
            });
        }
        text
    }

    fn items_inside(random: &mut Random) -> usize {
        3 + random.below(28)
    }
}

impl<T: Drawn> Drawn for Option<T> {
    fn drawn(kind: Kind, _items: usize, random: &mut Random) -> Option<T> {
        random.choose(kind).then(|| inside(kind, random))
    }
}

impl<T: Drawn, E: Drawn> Drawn for Result<T, E> {
    fn drawn(kind: Kind, _items: usize, random: &mut Random) -> Result<T, E> {
        if random.choose(kind) {
            Ok(inside(kind, random))
        } else {
            Err(inside(kind, random))
        }
    }
}

impl<T: Drawn> Drawn for Bound<T> {
    fn drawn(kind: Kind, _items: usize, random: &mut Random) -> Bound<T> {
        if random.choose(kind) {
            Bound::Included(inside(kind, random))
        } else if random.flip() {
            Bound::Excluded(inside(kind, random))
        } else {
            Bound::Unbounded
        }
    }
}

impl<T: Drawn, const N: usize> Drawn for [T; N] {
    fn drawn(kind: Kind, _items: usize, random: &mut Random) -> [T; N] {
        array::from_fn(|_| inside(kind, random))
    }
}

impl<T: Drawn> Drawn for Box<T> {
    fn drawn(kind: Kind, items: usize, random: &mut Random) -> Box<T> {
        Box::new(T::drawn(kind, items, random))
    }
}

impl<T: Drawn> Drawn for Vec<T> {
    fn drawn(kind: Kind, items: usize, random: &mut Random) -> Vec<T> {
        (0..items).map(|_| inside(kind, random)).collect()
    }

    fn items_inside(random: &mut Random) -> usize {
        random.below(9)
    }
}

impl Drawn for BTreeMap<u32, u64> {
    fn drawn(kind: Kind, items: usize, random: &mut Random) -> BTreeMap<u32, u64> {
        (0..items)
            .map(|_| (random.next() as u32, random.number(kind, 64)))
            .collect()
    }
}

impl Drawn for HashMap<u32, u64> {
    fn drawn(kind: Kind, items: usize, random: &mut Random) -> HashMap<u32, u64> {
        (0..items)
            .map(|_| (random.next() as u32, random.number(kind, 64)))
            .collect()
    }
}

macro_rules! drawn_tuple {
    ($($part:ident)*) => {
        impl<$($part: Drawn),*> Drawn for ($($part,)*) {
            fn drawn(kind: Kind, _items: usize, random: &mut Random) -> Self {
                ($(inside::<$part>(kind, random),)*)
            }
        }
    };
}

drawn_tuple!(A B);
drawn_tuple!(A B C);
drawn_tuple!(A B C D);
drawn_tuple!(A B C D E);
drawn_tuple!(A B C D E F G);
drawn_tuple!(A B C D E F G H);
drawn_tuple!(A B C D E F G H I J K L M N O P);

/// The bytes of a list of values with so many items each, in the original's encoding.
pub fn bytes_of<T: Drawn + Encode, const FIXED: bool>(
    kind: Kind,
    values: usize,
    items: usize,
) -> Vec<u8> {
    let random = &mut Random(88_172_645_463_325_252);
    let values: Vec<T> = (0..values).map(|_| T::drawn(kind, items, random)).collect();
    let bytes = if FIXED {
        bincode::encode_to_vec(&values, config::legacy())
    } else {
        bincode::encode_to_vec(&values, config::standard())
    };
    bytes.expect("values can be written")
}

/// Whether two rooms hold the same bytes.
pub fn same_bytes(one: &[u8], other: &[u8]) -> bool {
    one == other
}

/// Whether two rooms hold lists of the same maps, whose entries may be in any order.
pub fn same_maps(one: &[u8], other: &[u8]) -> bool {
    let read =
        |bytes| bincode::decode_from_slice::<Vec<BTreeMap<u32, u64>>, _>(bytes, config::standard());
    let read_fixed =
        |bytes| bincode::decode_from_slice::<Vec<BTreeMap<u32, u64>>, _>(bytes, config::legacy());
    match (read(one), read(other)) {
        (Ok(one), Ok(other)) => one == other,
        _ => matches!((read_fixed(one), read_fixed(other)), (Ok(one), Ok(other)) if one == other),
    }
}
