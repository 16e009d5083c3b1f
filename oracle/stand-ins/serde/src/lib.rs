//! Stand-in for `serde`: just enough to write and read the original's types. `Serializer` keeps
//! the names that value.rs uses, so that its `serialize_f64` runs on every key and every row.

pub use serde_derive::{Deserialize, Serialize};

mod read;
mod write;

pub trait Serialize {
    fn serialize<S: Serializer>(&self, serializer: S) -> Result<S::Ok, S::Error>;
}

pub trait Serializer: Sized {
    type Ok;
    type Error;
    type Parts: Parts<Ok = Self::Ok, Error = Self::Error>;

    fn serialize_bool(self, value: bool) -> Result<Self::Ok, Self::Error>;
    fn serialize_i64(self, value: i64) -> Result<Self::Ok, Self::Error>;
    fn serialize_u64(self, value: u64) -> Result<Self::Ok, Self::Error>;
    fn serialize_f64(self, value: f64) -> Result<Self::Ok, Self::Error>;
    fn serialize_str(self, value: &str) -> Result<Self::Ok, Self::Error>;
    /// A value made of parts whose number its type fixes.
    fn serialize_parts(self) -> Result<Self::Parts, Self::Error>;
    /// The same for a case of an enum.
    fn serialize_variant(self, number: u8) -> Result<Self::Parts, Self::Error>;
    /// The same for a counted list.
    fn serialize_list(self, count: usize) -> Result<Self::Parts, Self::Error>;
}

/// Takes the parts of a value one after the other.
pub trait Parts {
    type Ok;
    type Error;

    fn part<T: Serialize + ?Sized>(&mut self, value: &T) -> Result<(), Self::Error>;
    fn end(self) -> Result<Self::Ok, Self::Error>;
}

pub trait Deserialize: Sized {
    fn deserialize<D: Deserializer>(source: &mut D) -> Result<Self, D::Error>;
}

pub trait Deserializer {
    type Error;

    fn read_bool(&mut self) -> Result<bool, Self::Error>;
    fn read_i64(&mut self) -> Result<i64, Self::Error>;
    fn read_u64(&mut self) -> Result<u64, Self::Error>;
    fn read_f64(&mut self) -> Result<f64, Self::Error>;
    fn read_string(&mut self) -> Result<String, Self::Error>;
    fn read_variant(&mut self) -> Result<u8, Self::Error>;
    fn read_count(&mut self) -> Result<usize, Self::Error>;
    /// The error for a variant number that the type doesn't have.
    fn unknown_variant(&self, number: u8) -> Self::Error;
}
