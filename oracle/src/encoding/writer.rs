//! Writing the byte code. Numbers are big-endian with their sign turned so that bytes order as
//! the numbers do; a text ends in two zero bytes, and a zero byte inside it is followed by 255.

use std::convert::Infallible;

use serde::{Parts, Serialize, Serializer};

pub fn encode<T: Serialize>(value: &T) -> Vec<u8> {
    let mut bytes = Vec::new();
    match value.serialize(Writer { bytes: &mut bytes }) {
        Ok(()) => bytes,
    }
}

struct Writer<'a> {
    bytes: &'a mut Vec<u8>,
}

impl<'a> Serializer for Writer<'a> {
    type Ok = ();
    type Error = Infallible;
    type Parts = Writer<'a>;

    fn serialize_bool(self, value: bool) -> Result<(), Infallible> {
        self.bytes.push(u8::from(value));
        Ok(())
    }

    fn serialize_i64(self, value: i64) -> Result<(), Infallible> {
        self.serialize_u64(value as u64 ^ SIGN)
    }

    fn serialize_u64(self, value: u64) -> Result<(), Infallible> {
        self.bytes.extend(value.to_be_bytes());
        Ok(())
    }

    fn serialize_f64(self, value: f64) -> Result<(), Infallible> {
        // Below zero a greater number has smaller bits, so all of them turn.
        let bits = value.to_bits();
        self.serialize_u64(if bits & SIGN == 0 { bits ^ SIGN } else { !bits })
    }

    fn serialize_str(self, value: &str) -> Result<(), Infallible> {
        for &byte in value.as_bytes() {
            self.bytes.push(byte);
            if byte == 0 {
                self.bytes.push(255);
            }
        }
        self.bytes.extend([0, 0]);
        Ok(())
    }

    fn serialize_parts(self) -> Result<Self, Infallible> {
        Ok(self)
    }

    fn serialize_variant(self, number: u8) -> Result<Self, Infallible> {
        self.bytes.push(number);
        Ok(self)
    }

    fn serialize_list(self, count: usize) -> Result<Self, Infallible> {
        self.bytes.extend((count as u64).to_be_bytes());
        Ok(self)
    }
}

impl Parts for Writer<'_> {
    type Ok = ();
    type Error = Infallible;

    fn part<T: Serialize + ?Sized>(&mut self, value: &T) -> Result<(), Infallible> {
        value.serialize(Writer { bytes: self.bytes })
    }

    fn end(self) -> Result<(), Infallible> {
        Ok(())
    }
}

const SIGN: u64 = 1 << 63;
