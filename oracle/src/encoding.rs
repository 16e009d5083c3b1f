//! Stand-in for the original's encodings: one byte code for keys and values. Encoded keys are
//! ordered as document 01 orders names and values, and a key's leading parts are a prefix of it.

use std::collections::BTreeSet;

use serde::{Deserialize, Serialize};

use crate::error::Result;

mod reader;
mod writer;

/// The lifetime is the original's; nothing is lent by this code.
pub trait Key<'a>: Serialize + Deserialize {
    fn encode(&self) -> Vec<u8> {
        writer::encode(self)
    }

    fn decode(bytes: &[u8]) -> Result<Self> {
        reader::decode(bytes)
    }
}

pub trait Value: Serialize + Deserialize {
    fn encode(&self) -> Vec<u8> {
        writer::encode(self)
    }

    fn decode(bytes: &[u8]) -> Result<Self> {
        reader::decode(bytes)
    }
}

impl<T: Value> Value for Vec<T> {}

impl<T: Value + Ord> Value for BTreeSet<T> {}

#[cfg(test)]
mod tests;
