//! The root of a crate `ron` that holds the published files of ron 0.12.3 and,
//! for those that are missing, stubs. build.sh puts the two together.

#![allow(dead_code, unused, clippy::all)]

extern crate alloc;

/// The methods of a `serde::Serializer` that refuses every value.
macro_rules! refuse_every_value {
    ($ok:ty) => {
        type Error = crate::error::Error;
        type Ok = $ok;
        type SerializeMap = serde::ser::Impossible<$ok, Self::Error>;
        type SerializeSeq = serde::ser::Impossible<$ok, Self::Error>;
        type SerializeStruct = serde::ser::Impossible<$ok, Self::Error>;
        type SerializeStructVariant = serde::ser::Impossible<$ok, Self::Error>;
        type SerializeTuple = serde::ser::Impossible<$ok, Self::Error>;
        type SerializeTupleStruct = serde::ser::Impossible<$ok, Self::Error>;
        type SerializeTupleVariant = serde::ser::Impossible<$ok, Self::Error>;

        refuse_every_value! { values
            serialize_bool(bool) serialize_i8(i8) serialize_i16(i16) serialize_i32(i32)
            serialize_i64(i64) serialize_u8(u8) serialize_u16(u16) serialize_u32(u32)
            serialize_u64(u64) serialize_f32(f32) serialize_f64(f64) serialize_char(char)
            serialize_str(&str) serialize_bytes(&[u8]) serialize_none() serialize_unit()
            serialize_unit_struct(&'static str)
            serialize_unit_variant(&'static str, u32, &'static str)
        }

        fn serialize_some<T: ?Sized + serde::Serialize>(
            self,
            _: &T,
        ) -> Result<Self::Ok, Self::Error> {
            Err(crate::stub())
        }

        fn serialize_newtype_struct<T: ?Sized + serde::Serialize>(
            self,
            _: &'static str,
            _: &T,
        ) -> Result<Self::Ok, Self::Error> {
            Err(crate::stub())
        }

        fn serialize_newtype_variant<T: ?Sized + serde::Serialize>(
            self,
            _: &'static str,
            _: u32,
            _: &'static str,
            _: &T,
        ) -> Result<Self::Ok, Self::Error> {
            Err(crate::stub())
        }

        fn serialize_seq(self, _: Option<usize>) -> Result<Self::SerializeSeq, Self::Error> {
            Err(crate::stub())
        }

        fn serialize_tuple(self, _: usize) -> Result<Self::SerializeTuple, Self::Error> {
            Err(crate::stub())
        }

        fn serialize_tuple_struct(
            self,
            _: &'static str,
            _: usize,
        ) -> Result<Self::SerializeTupleStruct, Self::Error> {
            Err(crate::stub())
        }

        fn serialize_tuple_variant(
            self,
            _: &'static str,
            _: u32,
            _: &'static str,
            _: usize,
        ) -> Result<Self::SerializeTupleVariant, Self::Error> {
            Err(crate::stub())
        }

        fn serialize_map(self, _: Option<usize>) -> Result<Self::SerializeMap, Self::Error> {
            Err(crate::stub())
        }

        fn serialize_struct(
            self,
            _: &'static str,
            _: usize,
        ) -> Result<Self::SerializeStruct, Self::Error> {
            Err(crate::stub())
        }

        fn serialize_struct_variant(
            self,
            _: &'static str,
            _: u32,
            _: &'static str,
            _: usize,
        ) -> Result<Self::SerializeStructVariant, Self::Error> {
            Err(crate::stub())
        }
    };
    (values $($name:ident($($arg:ty),*))*) => {
        $(fn $name(self, $(_: $arg),*) -> Result<Self::Ok, Self::Error> {
            Err(crate::stub())
        })*
    };
}

pub mod de;
pub mod error;
pub mod extensions;
pub mod options;
pub mod ser;
pub mod value;

mod parse;

pub use de::Deserializer;
pub use error::Error;
pub use options::Options;

/// What a stub answers, so that a call that reaches one is seen.
pub(crate) fn stub() -> error::Error {
    error::Error::Message(String::from(STUB))
}

pub const STUB: &str = "this call reached a stub";
