//! A record and the place reached in it.

use super::{Outside, broken};
use crate::sql::types::Value;

pub struct Reader<'a> {
    rest: &'a [u8],
}

impl<'a> Reader<'a> {
    pub fn new(record: &'a [u8]) -> Self {
        Self { rest: record }
    }

    pub fn byte(&mut self) -> Result<u8, Outside> {
        Ok(self.array::<1>()?[0])
    }

    /// A byte that is 0 or 1.
    pub fn flag(&mut self) -> Result<bool, Outside> {
        match self.byte()? {
            0 => Ok(false),
            1 => Ok(true),
            _ => Err(broken("a byte above 1")),
        }
    }

    /// A name or a text: the Rust has both as UTF-8 only.
    pub fn name(&mut self) -> Result<String, Outside> {
        let length = self.byte()? as usize;
        if length > 24 {
            return Err(broken("name or text above 24"));
        }
        let (bytes, rest) = self.rest.split_at_checked(length).ok_or_else(cut_off)?;
        self.rest = rest;
        String::from_utf8(bytes.to_vec()).map_err(|_| "a name or text is not UTF-8".into())
    }

    pub fn value(&mut self) -> Result<Value, Outside> {
        Ok(match self.byte()? {
            0 => Value::Null,
            1 => Value::Boolean(self.flag()?),
            2 => Value::Integer(i64::from_be_bytes(self.array()?)),
            3 => Value::Float(self.float()?),
            4 => Value::String(self.name()?),
            _ => return Err(broken("unknown kind")),
        })
    }

    pub fn values(&mut self) -> Result<Vec<Value>, Outside> {
        self.counted(Self::value)
    }

    /// A count byte and that many of what `one` reads.
    pub fn counted<T>(
        &mut self,
        mut one: impl FnMut(&mut Self) -> Result<T, Outside>,
    ) -> Result<Vec<T>, Outside> {
        (0..self.byte()?).map(|_| one(self)).collect()
    }

    pub fn end(&self) -> Result<(), Outside> {
        if self.rest.is_empty() { Ok(()) } else { Err(broken("bytes left over")) }
    }

    fn float(&mut self) -> Result<f64, Outside> {
        let float = f64::from_bits(u64::from_be_bytes(self.array()?));
        if float == 0.0 && float.is_sign_negative() {
            return Err("minus zero".into());
        }
        if float.is_nan() && float.to_bits() != THE_NAN {
            return Err("a NaN other than 7ff8000000000000".into());
        }
        Ok(float)
    }

    fn array<const N: usize>(&mut self) -> Result<[u8; N], Outside> {
        let (array, rest) = self.rest.split_first_chunk().ok_or_else(cut_off)?;
        self.rest = rest;
        Ok(*array)
    }
}

fn cut_off() -> Outside {
    broken("an operand runs past the end")
}

const THE_NAN: u64 = 0x7ff8_0000_0000_0000;
