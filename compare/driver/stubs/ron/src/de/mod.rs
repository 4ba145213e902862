//! A stub: nothing is read. `options.rs` and `value/raw.rs` name these items.

use serde::{de, forward_to_deserialize_any};

use crate::{
    error::{Error, Position, Result, Span, SpannedError, SpannedResult},
    extensions::Extensions,
    options::Options,
    parse::Parser,
};

pub struct Deserializer<'de> {
    pub(crate) parser: Parser<'de>,
}

impl<'de> Deserializer<'de> {
    pub fn from_str(_: &'de str) -> SpannedResult<Self> {
        Err(refusal(crate::stub()))
    }

    pub fn from_str_with_options(_: &'de str, _: &Options) -> SpannedResult<Self> {
        Err(refusal(crate::stub()))
    }

    pub fn from_bytes_with_options(_: &'de [u8], _: &Options) -> SpannedResult<Self> {
        Err(refusal(crate::stub()))
    }

    pub fn extensions(&self) -> Extensions {
        Extensions::empty()
    }

    pub fn end(&mut self) -> Result<()> {
        Err(crate::stub())
    }

    pub fn span_error(&self, code: Error) -> SpannedError {
        refusal(code)
    }
}

fn refusal(code: Error) -> SpannedError {
    let start = Position { line: 1, col: 1 };
    SpannedError {
        code,
        span: Span { start, end: start },
    }
}

impl<'de, 'a> de::Deserializer<'de> for &'a mut Deserializer<'de> {
    type Error = Error;

    fn deserialize_any<V: de::Visitor<'de>>(self, _: V) -> Result<V::Value> {
        Err(crate::stub())
    }

    forward_to_deserialize_any! {
        bool i8 i16 i32 i64 i128 u8 u16 u32 u64 u128 f32 f64 char str string bytes byte_buf
        option unit unit_struct newtype_struct seq tuple tuple_struct map struct enum
        identifier ignored_any
    }
}
