//! The byte code orders as 01 does, comes back as it went, and runs value.rs's `serialize_f64`.

use super::{Key as _, Value as _};
use crate::sql::engine::Key;
use crate::sql::types::{Row, Value};

/// Values in 01's order.
fn rising() -> Vec<Value> {
    let mut values = vec![Value::Null, Value::Boolean(false), Value::Boolean(true)];
    values.extend([i64::MIN, -256, -1, 0, 1, 255, 256, i64::MAX].map(Value::Integer));
    let floats = [f64::NEG_INFINITY, -1e300, -1.0, -5e-324, 0.0, 5e-324, 1.0, f64::INFINITY];
    values.extend(floats.map(Value::Float));
    values.push(Value::Float(f64::NAN));
    let texts = ["", "\0", "\0\0", "\0a", "A", "a", "a\0", "a\0b", "ab", "b", "é", "中"];
    values.extend(texts.map(Value::from));
    values
}

fn row_key(table: &str, value: &Value) -> Vec<u8> {
    Key::Row(table.into(), value.into()).encode()
}

#[test]
fn keys_rise_as_values_do() {
    let keys: Vec<_> = rising().iter().map(|value| row_key("t", value)).collect();
    assert!(keys.is_sorted_by(|a, b| a < b));
    // Every row of a table comes before those of a table whose name it begins.
    assert!(keys.iter().all(|key| *key < row_key("t\0", &Value::Null)));
    assert!(keys.iter().all(|key| *key < row_key("tt", &Value::Null)));
}

#[test]
fn rows_and_keys_come_back() {
    let row: Row = rising();
    let back = Row::decode(&row.encode()).expect("a row");
    assert_eq!(format!("{row:?}"), format!("{back:?}"));
    for value in row {
        let Ok(Key::Row(table, back)) = Key::decode(&row_key("a\0b", &value)) else {
            panic!("a row's key");
        };
        assert_eq!((&*table, format!("{back:?}")), ("a\0b", format!("{value:?}")));
    }
}

#[test]
fn the_original_serializes_floats() {
    assert_eq!(row_key("t", &Value::Float(-0.0)), row_key("t", &Value::Float(0.0)));
    let negative_nan = f64::from_bits(0xfff8_0000_0000_0001);
    let back = Row::decode(&vec![Value::Float(-0.0), Value::Float(negative_nan)].encode());
    let bits = back.expect("a row").into_iter().map(|value| match value {
        Value::Float(float) => float.to_bits(),
        other => panic!("a float, not {other}"),
    });
    assert_eq!(bits.collect::<Vec<_>>(), [0, 0x7ff8_0000_0000_0001]);
}
