//! Values and names as lines have them.

use std::fmt::Write;

use crate::sql::types::{Row, Value};

pub fn row(row: &Row) -> String {
    let mut line = String::from("row");
    for value in row {
        line.push(' ');
        line.push_str(&self::value(value));
    }
    line
}

pub fn value(value: &Value) -> String {
    match value {
        Value::Null => "NULL".into(),
        Value::Boolean(boolean) => boolean.to_string(),
        Value::Integer(integer) => integer.to_string(),
        Value::Float(float) => format!("f:{:016x}", float.to_bits()),
        Value::String(string) => text(string),
    }
}

pub fn text(text: &str) -> String {
    let mut line = String::from("t:");
    for byte in text.bytes() {
        write!(line, "{byte:02x}").expect("a text takes everything");
    }
    line
}
