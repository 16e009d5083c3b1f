//! Reading the byte code back.

use serde::{Deserialize, Deserializer};

use crate::error::{Error, Result};

pub fn decode<T: Deserialize>(bytes: &[u8]) -> Result<T> {
    let mut reader = Reader { rest: bytes };
    let value = T::deserialize(&mut reader)?;
    if reader.rest.is_empty() { Ok(value) } else { Err(damaged("bytes left over")) }
}

struct Reader<'a> {
    rest: &'a [u8],
}

impl Reader<'_> {
    fn take<const N: usize>(&mut self) -> Result<[u8; N]> {
        let (taken, rest) = self.rest.split_first_chunk().ok_or_else(|| damaged("cut off"))?;
        self.rest = rest;
        Ok(*taken)
    }

    fn byte(&mut self) -> Result<u8> {
        Ok(self.take::<1>()?[0])
    }
}

impl Deserializer for Reader<'_> {
    type Error = Error;

    fn read_bool(&mut self) -> Result<bool> {
        match self.byte()? {
            0 => Ok(false),
            1 => Ok(true),
            _ => Err(damaged("boolean")),
        }
    }

    fn read_i64(&mut self) -> Result<i64> {
        Ok((self.read_u64()? ^ SIGN) as i64)
    }

    fn read_u64(&mut self) -> Result<u64> {
        Ok(u64::from_be_bytes(self.take()?))
    }

    fn read_f64(&mut self) -> Result<f64> {
        let turned = self.read_u64()?;
        Ok(f64::from_bits(if turned & SIGN == 0 { !turned } else { turned ^ SIGN }))
    }

    fn read_string(&mut self) -> Result<String> {
        let mut text = Vec::new();
        loop {
            match self.byte()? {
                0 => match self.byte()? {
                    0 => return String::from_utf8(text).map_err(|_| damaged("text")),
                    255 => text.push(0),
                    _ => return Err(damaged("text")),
                },
                byte => text.push(byte),
            }
        }
    }

    fn read_variant(&mut self) -> Result<u8> {
        self.byte()
    }

    fn read_count(&mut self) -> Result<usize> {
        Ok(self.read_u64()? as usize)
    }

    fn unknown_variant(&self, number: u8) -> Error {
        damaged(&format!("variant {number}"))
    }
}

fn damaged(what: &str) -> Error {
    Error::NotHere(format!("damaged bytes, {what}"))
}

const SIGN: u64 = 1 << 63;
