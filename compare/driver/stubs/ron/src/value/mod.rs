//! A stub: `parse.rs` names these items in its reader of numbers, `ser/mod.rs`
//! where it writes compact ranges.

use serde::ser;

pub(crate) mod raw;

pub use raw::RawValue;

pub enum Number {
    I8(i8),
    I16(i16),
    I32(i32),
    I64(i64),
    U8(u8),
    U16(u16),
    U32(u32),
    U64(u64),
    F32(F32),
    F64(F64),
}

pub struct F32(pub f32);

pub struct F64(pub f64);

impl From<f32> for F32 {
    fn from(value: f32) -> Self {
        F32(value)
    }
}

impl From<f64> for F64 {
    fn from(value: f64) -> Self {
        F64(value)
    }
}

impl ser::Serialize for Number {
    fn serialize<S: ser::Serializer>(&self, _: S) -> Result<S::Ok, S::Error> {
        Err(ser::Error::custom(crate::stub()))
    }
}

pub(crate) struct NumberSerializer;

impl ser::Serializer for NumberSerializer {
    refuse_every_value!(Number);
}
