//! What the words of a type are like, as data: by it inputs are drawn, charges are reckoned and encodings are brought into one form.
use original::own::*;
use std::borrow::Cow;
use std::cell::{Cell, RefCell};
use std::cmp::Reverse;
use std::collections::{BTreeMap, BTreeSet, BinaryHeap, HashMap, HashSet, VecDeque};
use std::ffi::CString;
use std::marker::PhantomData;
use std::mem::size_of;
use std::net::{IpAddr, Ipv4Addr, Ipv6Addr, SocketAddr, SocketAddrV4, SocketAddrV6};
use std::num::*;
use std::ops::{Bound, Range, RangeInclusive};
use std::path::{Path, PathBuf};
use std::rc::Rc;
use std::sync::Arc;
use std::time::Duration;

/// Which bytes a text may have.
#[derive(Clone, Copy, PartialEq)]
pub enum Letters {
    Utf8,
    NoZero,
    Any,
}

/// What a container claims for an item: by docs/FORMAT.md, section 8, and by the original.
#[derive(Clone, Copy)]
pub struct Claims {
    pub stated: u64,
    pub in_memory: u64,
}

/// How a container holds its items.
#[derive(Clone, Copy, PartialEq)]
pub enum Holding {
    /// In the order of the word, in room that is reserved at once.
    Row,
    /// In any order, in room that is reserved at once.
    Bag,
    /// By a hash, in any order, in room that is reserved at once.
    Hashed,
    /// By their own order, in no room that is reserved.
    Tree,
}

#[derive(Clone)]
pub enum Shape {
    Number { width: usize, zero: bool },
    Float { width: usize },
    Bool,
    Char,
    Parts(Vec<Shape>),
    Array(usize, Claims, Box<Shape>),
    Optional(Box<Shape>),
    Choice(Vec<(u32, Shape)>),
    List(Holding, Claims, Box<Shape>),
    Text(Letters),
    Octets(usize),
    Duration,
}

impl Shape {
    /// Whether its words have no bytes.
    pub fn is_empty(&self) -> bool {
        match self {
            Shape::Parts(parts) => parts.iter().all(Shape::is_empty),
            Shape::Array(count, _, item) => *count == 0 || item.is_empty(),
            _ => false,
        }
    }

    /// Whether some part of it is written in any order.
    pub fn has_bag(&self) -> bool {
        match self {
            Shape::Parts(parts) => parts.iter().any(Shape::has_bag),
            Shape::Choice(parts) => parts.iter().any(|(_, part)| part.has_bag()),
            Shape::Array(_, _, item) | Shape::Optional(item) => item.has_bag(),
            Shape::List(holding, _, item) => holding.is_bag() || item.has_bag(),
            _ => false,
        }
    }
}

impl Holding {
    /// Whether the items are written in any order.
    pub fn is_bag(self) -> bool {
        matches!(self, Holding::Bag | Holding::Hashed)
    }
}

/// A type whose words are known.
pub trait Shaped {
    fn shape() -> Shape;

    /// The claim size of docs/FORMAT.md, section 8.
    fn claim() -> u64;
}

fn claims_of<T: Shaped>() -> Claims {
    Claims {
        stated: T::claim(),
        in_memory: size_of::<T>() as u64,
    }
}

pub fn list_of<T: Shaped>(holding: Holding) -> Shape {
    Shape::List(holding, claims_of::<T>(), Box::new(T::shape()))
}

fn map_of<K: Shaped, V: Shaped>(holding: Holding) -> Shape {
    let claims = Claims {
        stated: K::claim() + V::claim(),
        in_memory: size_of::<(K, V)>() as u64,
    };
    Shape::List(
        holding,
        claims,
        Box::new(Shape::Parts(vec![K::shape(), V::shape()])),
    )
}

fn choice_of(parts: Vec<Shape>) -> Shape {
    Shape::Choice((0..).zip(parts).collect())
}

macro_rules! shaped {
    ($(@[$($generics:tt)*])? $of:ty, $claim:expr, $shape:expr) => {
        impl $(<$($generics)*>)? Shaped for $of {
            fn shape() -> Shape {
                $shape
            }

            fn claim() -> u64 {
                $claim
            }
        }
    };
}

macro_rules! shaped_numbers {
    ($($number:ident $non_zero:ident $width:literal;)*) => {
        $(
            shaped!($number, $width, Shape::Number { width: $width, zero: true });
            shaped!($non_zero, $width, Shape::Number { width: $width, zero: false });
        )*
    };
}

shaped_numbers! {
    u8 NonZeroU8 1;
    u16 NonZeroU16 2;
    u32 NonZeroU32 4;
    u64 NonZeroU64 8;
    u128 NonZeroU128 16;
    usize NonZeroUsize 8;
    i8 NonZeroI8 1;
    i16 NonZeroI16 2;
    i32 NonZeroI32 4;
    i64 NonZeroI64 8;
    i128 NonZeroI128 16;
    isize NonZeroIsize 8;
}

const UNIT: Shape = Shape::Parts(vec![]);

shaped!(f32, 4, Shape::Float { width: 4 });
shaped!(f64, 8, Shape::Float { width: 8 });
shaped!(bool, 1, Shape::Bool);
shaped!(char, 4, Shape::Char);
shaped!((), 1, UNIT);
shaped!(@[T] PhantomData<T>, 1, UNIT);
shaped!(@[T: Shaped] Option<T>, 1 + T::claim(), Shape::Optional(Box::new(T::shape())));
shaped!(@[T: Shaped, U: Shaped] Result<T, U>, 4 + T::claim().max(U::claim()), choice_of(vec![T::shape(), U::shape()]));
shaped!(@[T: Shaped] Bound<T>, 4 + T::claim(), choice_of(vec![UNIT, T::shape(), T::shape()]));
shaped!(@[T: Shaped] Range<T>, 2 * T::claim(), Shape::Parts(vec![T::shape(), T::shape()]));
shaped!(@[T: Shaped] RangeInclusive<T>, 2 * T::claim(), Shape::Parts(vec![T::shape(), T::shape()]));
shaped!(Duration, 12, Shape::Duration);
shaped!(@[T: Shaped] Wrapping<T>, T::claim(), T::shape());
shaped!(@[T: Shaped] Reverse<T>, T::claim(), T::shape());
shaped!(@[T: Shaped] Cell<T>, T::claim(), T::shape());
shaped!(@[T: Shaped] RefCell<T>, T::claim(), T::shape());
shaped!(@[T: Shaped] Box<T>, 8, T::shape());
shaped!(@[T: Shaped] Rc<T>, 8, T::shape());
shaped!(@[T: Shaped] Arc<T>, 8, T::shape());
shaped!(@[T: Shaped] Vec<T>, 24, list_of::<T>(Holding::Row));
shaped!(@[T: Shaped] VecDeque<T>, 24, list_of::<T>(Holding::Row));
shaped!(@[T: Shaped] BinaryHeap<T>, 24, list_of::<T>(Holding::Bag));
shaped!(@[T: Shaped] BTreeSet<T>, 24, list_of::<T>(Holding::Tree));
shaped!(@[T: Shaped] HashSet<T>, 24, list_of::<T>(Holding::Hashed));
shaped!(@[K: Shaped, V: Shaped] BTreeMap<K, V>, 24, map_of::<K, V>(Holding::Tree));
shaped!(@[K: Shaped, V: Shaped] HashMap<K, V>, 24, map_of::<K, V>(Holding::Hashed));
shaped!(@[T: Shaped] Box<[T]>, 16, list_of::<T>(Holding::Row));
shaped!(@[T: Shaped] Rc<[T]>, 16, list_of::<T>(Holding::Row));
shaped!(String, 24, Shape::Text(Letters::Utf8));
shaped!(PathBuf, 24, Shape::Text(Letters::Utf8));
shaped!(CString, 24, Shape::Text(Letters::NoZero));
shaped!(Box<str>, 16, Shape::Text(Letters::Utf8));
shaped!(Rc<str>, 16, Shape::Text(Letters::Utf8));
shaped!(&str, 16, Shape::Text(Letters::Utf8));
shaped!(&Path, 16, Shape::Text(Letters::Utf8));
shaped!(&[u8], 16, Shape::Text(Letters::Any));
shaped!(Cow<'_, str>, 24, Shape::Text(Letters::Utf8));
shaped!(Cow<'_, [u8]>, 24, Shape::Text(Letters::Any));
shaped!(Cow<'_, [u32]>, 24, list_of::<u32>(Holding::Row));
shaped!(Cow<'_, u32>, 4, u32::shape());
shaped!(Cow<'_, char>, 4, char::shape());
shaped!(Ipv4Addr, 4, Shape::Octets(4));
shaped!(Ipv6Addr, 16, Shape::Octets(16));
shaped!(
    IpAddr,
    20,
    choice_of(vec![Ipv4Addr::shape(), Ipv6Addr::shape()])
);
shaped!(
    SocketAddrV4,
    6,
    Shape::Parts(vec![Ipv4Addr::shape(), u16::shape()])
);
shaped!(
    SocketAddrV6,
    18,
    Shape::Parts(vec![Ipv6Addr::shape(), u16::shape()])
);
shaped!(
    SocketAddr,
    22,
    choice_of(vec![SocketAddrV4::shape(), SocketAddrV6::shape()])
);

impl<T: Shaped, const N: usize> Shaped for [T; N] {
    fn shape() -> Shape {
        Shape::Array(N, claims_of::<T>(), Box::new(T::shape()))
    }

    fn claim() -> u64 {
        (N as u64 * T::claim()).max(1)
    }
}

macro_rules! shaped_tuples {
    ($(($($part:ident)*))*) => {
        $(
            impl<$($part: Shaped),*> Shaped for ($($part,)*) {
                fn shape() -> Shape {
                    Shape::Parts(vec![$($part::shape()),*])
                }

                fn claim() -> u64 {
                    0 $(+ $part::claim())*
                }
            }
        )*
    };
}

shaped_tuples! {
    (A)
    (A B)
    (A B C)
    (A B C D)
    (A B C D E F G)
    (A B C D E F G H)
    (A B C D E F G H I J K L M N O P)
}

// The types of the crate `derived_types`.
shaped!(Nothing, 1, UNIT);
shaped!(Millimetres, 4, u32::shape());
shaped!(Point, 8, <(i32, i32)>::shape());
shaped!(@[T: Shaped] Wrapper<T>, T::claim(), T::shape());
shaped!(Word<'_>, 16, <&str>::shape());
shaped!(Packet<'_>, 2 + 17, <(u16, Option<&[u8]>)>::shape());
shaped!(
    Mixed,
    4 + 1,
    Shape::Choice(vec![(3, UNIT), (1, UNIT), (2, UNIT)])
);
shaped!(
    Turn,
    4 + 29,
    choice_of(vec![<(u32, String, u8)>::shape(); 5])
);
shaped!(@[T: Shaped] Reply<T>, 4 + T::claim().max(26), choice_of(vec![UNIT, T::shape(), <(u16, String)>::shape()]));
shaped!(
    Figure,
    4 + 12,
    choice_of(vec![
        UNIT,
        u32::shape(),
        <(u32, u32)>::shape(),
        <(u32, u32, u32)>::shape()
    ])
);
