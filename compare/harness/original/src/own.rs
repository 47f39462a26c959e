//! The types of the crate `derived_types`, in the form that the original's derive macro gives.
use bincode::de::{BorrowDecode, BorrowDecoder, Decode, Decoder};
use bincode::enc::{Encode, Encoder};
use bincode::error::{AllowedEnumVariants, DecodeError, EncodeError};

pub struct Nothing;

pub struct Millimetres(pub u32);

pub struct Point(pub i32, pub i32);

pub struct Wrapper<T>(pub T);

pub struct Word<'a>(pub &'a str);

pub struct Packet<'a> {
    pub to: u16,
    pub payload: Option<&'a [u8]>,
}

pub enum Mixed {
    Third = 3,
    First = 1,
    Second = 2,
}

pub enum Figure {
    Empty,
    Circle(u32),
    Rectangle(u32, u32),
    Triangle { a: u32, b: u32, c: u32 },
}

pub enum Reply<T> {
    Nothing,
    Found(T),
    Refused { code: u16, reason: String },
}

pub enum Turn {
    Joined(u32, String, u8),
    Left(u32, String, u8),
    Moved(u32, String, u8),
    Said(u32, String, u8),
    Won(u32, String, u8),
}

/// Writes the parts in turn.
macro_rules! written {
    ($encoder:ident; $($part:expr),*) => {{
        $(Encode::encode($part, $encoder)?;)*
        Ok(())
    }};
}

macro_rules! encoded {
    ($(@[$($generics:tt)*])? $of:ty, $this:ident, $encoder:ident, $body:expr) => {
        impl $(<$($generics)*>)? Encode for $of {
            fn encode<E: Encoder>(&self, $encoder: &mut E) -> Result<(), EncodeError> {
                let $this = self;
                $body
            }
        }
    };
}

encoded!(Nothing, _this, _encoder, Ok(()));
encoded!(Millimetres, this, encoder, written!(encoder; &this.0));
encoded!(Point, this, encoder, written!(encoder; &this.0, &this.1));
encoded!(@[T: Encode] Wrapper<T>, this, encoder, written!(encoder; &this.0));
encoded!(Word<'_>, this, encoder, written!(encoder; &this.0));
encoded!(
    Packet<'_>,
    this,
    encoder,
    written!(encoder; &this.to, &this.payload)
);
encoded!(
    Mixed,
    this,
    encoder,
    match this {
        Mixed::Third => written!(encoder; &3u32),
        Mixed::First => written!(encoder; &1u32),
        Mixed::Second => written!(encoder; &2u32),
    }
);
encoded!(
    Figure,
    this,
    encoder,
    match this {
        Figure::Empty => written!(encoder; &0u32),
        Figure::Circle(part) => written!(encoder; &1u32, part),
        Figure::Rectangle(one, other) => written!(encoder; &2u32, one, other),
        Figure::Triangle { a, b, c } => written!(encoder; &3u32, a, b, c),
    }
);
encoded!(
    @[T: Encode] Reply<T>,
    this,
    encoder,
    match this {
        Reply::Nothing => written!(encoder; &0u32),
        Reply::Found(found) => written!(encoder; &1u32, found),
        Reply::Refused { code, reason } => written!(encoder; &2u32, code, reason),
    }
);
encoded!(
    Turn,
    this,
    encoder,
    match this {
        Turn::Joined(who, what, how) => written!(encoder; &0u32, who, what, how),
        Turn::Left(who, what, how) => written!(encoder; &1u32, who, what, how),
        Turn::Moved(who, what, how) => written!(encoder; &2u32, who, what, how),
        Turn::Said(who, what, how) => written!(encoder; &3u32, who, what, how),
        Turn::Won(who, what, how) => written!(encoder; &4u32, who, what, how),
    }
);

/// Reads the next part.
fn next<Context, T: Decode<Context>, D: Decoder<Context = Context>>(
    decoder: &mut D,
) -> Result<T, DecodeError> {
    T::decode(decoder)
}

macro_rules! decoded {
    ($(@[$($generics:tt)*])? $of:ty, $decoder:ident, $body:expr) => {
        impl<Context $(, $($generics)*)?> Decode<Context> for $of {
            fn decode<D: Decoder<Context = Context>>(
                $decoder: &mut D,
            ) -> Result<Self, DecodeError> {
                Ok($body)
            }
        }
    };
}

/// The error for a tag that the enum does not have.
fn unknown(
    type_name: &'static str,
    found: u32,
    allowed: &'static AllowedEnumVariants,
) -> DecodeError {
    DecodeError::UnexpectedVariant {
        type_name,
        allowed,
        found,
    }
}

decoded!(Nothing, _decoder, Nothing);
decoded!(Millimetres, decoder, Millimetres(next(decoder)?));
decoded!(Point, decoder, Point(next(decoder)?, next(decoder)?));
decoded!(@[T: Decode<Context>] Wrapper<T>, decoder, Wrapper(next(decoder)?));
decoded!(
    Mixed,
    decoder,
    match next::<_, u32, _>(decoder)? {
        3 => Mixed::Third,
        1 => Mixed::First,
        2 => Mixed::Second,
        found =>
            return Err(unknown(
                "Mixed",
                found,
                &AllowedEnumVariants::Allowed(&[3, 1, 2])
            )),
    }
);
decoded!(
    Figure,
    decoder,
    match next::<_, u32, _>(decoder)? {
        0 => Figure::Empty,
        1 => Figure::Circle(next(decoder)?),
        2 => Figure::Rectangle(next(decoder)?, next(decoder)?),
        3 => Figure::Triangle {
            a: next(decoder)?,
            b: next(decoder)?,
            c: next(decoder)?,
        },
        found =>
            return Err(unknown(
                "Figure",
                found,
                &AllowedEnumVariants::Range { min: 0, max: 3 }
            )),
    }
);
decoded!(
    @[T: Decode<Context>] Reply<T>,
    decoder,
    match next::<_, u32, _>(decoder)? {
        0 => Reply::Nothing,
        1 => Reply::Found(next(decoder)?),
        2 => Reply::Refused {
            code: next(decoder)?,
            reason: next(decoder)?,
        },
        found => return Err(unknown("Reply", found, &AllowedEnumVariants::Range { min: 0, max: 2 })),
    }
);
decoded!(
    Turn,
    decoder,
    match next::<_, u32, _>(decoder)? {
        0 => Turn::Joined(next(decoder)?, next(decoder)?, next(decoder)?),
        1 => Turn::Left(next(decoder)?, next(decoder)?, next(decoder)?),
        2 => Turn::Moved(next(decoder)?, next(decoder)?, next(decoder)?),
        3 => Turn::Said(next(decoder)?, next(decoder)?, next(decoder)?),
        4 => Turn::Won(next(decoder)?, next(decoder)?, next(decoder)?),
        found =>
            return Err(unknown(
                "Turn",
                found,
                &AllowedEnumVariants::Range { min: 0, max: 4 }
            )),
    }
);

impl<'de, Context> BorrowDecode<'de, Context> for Word<'de> {
    fn borrow_decode<D: BorrowDecoder<'de, Context = Context>>(
        decoder: &mut D,
    ) -> Result<Self, DecodeError> {
        Ok(Word(BorrowDecode::borrow_decode(decoder)?))
    }
}

impl<'de, Context> BorrowDecode<'de, Context> for Packet<'de> {
    fn borrow_decode<D: BorrowDecoder<'de, Context = Context>>(
        decoder: &mut D,
    ) -> Result<Self, DecodeError> {
        Ok(Packet {
            to: BorrowDecode::borrow_decode(decoder)?,
            payload: BorrowDecode::borrow_decode(decoder)?,
        })
    }
}
