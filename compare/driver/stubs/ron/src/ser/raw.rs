//! A stub: `ser/mod.rs` uses it for the newtype struct named as the raw value is.

use core::{fmt, marker::PhantomData};

use serde::ser;

pub struct Serializer<'a, W: fmt::Write>(PhantomData<&'a mut W>);

impl<'a, W: fmt::Write> Serializer<'a, W> {
    pub fn new(_: &'a mut super::Serializer<W>) -> Self {
        Serializer(PhantomData)
    }
}

impl<'a, W: fmt::Write> ser::Serializer for Serializer<'a, W> {
    refuse_every_value!(());
}
