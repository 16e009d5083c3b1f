//! Equality and order across kinds, minus zero and NaN.

use super::scene::{Scene, indexed, key, not_null, table, unique};
use crate::sql::engine::Transaction as _;
use crate::sql::types::{DataType, Value};

pub fn integers_and_floats() {
    let scene = Scene::new(
        "integer 1 and float 1.0",
        "they differ, and every integer comes before every float",
    );
    let (one, float) = (Value::Integer(1), Value::Float(1.0));
    scene.attempt("integer 1 = float 1.0", |_| Ok(one == float));
    scene.attempt("integer 1 against float 1.0", |_| Ok(one.cmp(&float)));
    scene.attempt("integer 1 against float 0.5", |_| Ok(one.cmp(&Value::Float(0.5))));
    let (great, rounded) = (Value::Integer((1 << 53) + 1), Value::Float((1u64 << 53) as f64));
    scene.attempt("integer 2^53 + 1 = float 2^53", |_| Ok(great == rounded));
    scene.attempt("float 0.0 = float -0.0", |_| Ok(Value::Float(0.0) == Value::Float(-0.0)));
    scene.attempt("float 0.0 against float -0.0", |_| {
        Ok(Value::Float(0.0).cmp(&Value::Float(-0.0)))
    });
}

pub fn minus_zero_deleted() {
    let scene = Scene::with_table(
        "float key 0.0 with an indexed column: (0.0, 5); delete [-0.0]",
        "minus zero becomes zero on entry: the row and its entry go",
        table("t", vec![key(DataType::Float), indexed("p", DataType::Integer)]),
        &[&[Value::Float(0.0), Value::Integer(5)]],
    );
    scene.attempt("delete", |txn| txn.delete("t", &[Value::Float(-0.0)]));
    scene.show();
}

pub fn minus_zero_updated() {
    let scene = Scene::with_table(
        "float key 0.0 with a unique column: (0.0, 5); update -0.0 to (-0.0, 5)",
        "minus zero becomes zero on entry: the pair is accepted and changes nothing",
        table("t", vec![key(DataType::Float), unique("p", DataType::Integer)]),
        &[&[Value::Float(0.0), Value::Integer(5)]],
    );
    scene.attempt("update", |txn| {
        let row = vec![Value::Float(-0.0), Value::Integer(5)];
        txn.update("t", [(Value::Float(-0.0), row)].into())
    });
    scene.show();
}

pub fn minus_zero_and_nans_stored() {
    let scene = Scene::with_table(
        "a float column given -0.0, a NaN with its sign, a NaN with another payload",
        "stored as 0.0 and twice as the NaN 7ff8000000000000",
        table("t", vec![key(DataType::Integer), not_null("f", DataType::Float)]),
        &[
            &[Value::Integer(1), Value::Float(-0.0)],
            &[Value::Integer(2), Value::Float(f64::from_bits(0xfff8 << 48))],
            &[Value::Integer(3), Value::Float(f64::from_bits((0x7ff8 << 48) + 1))],
        ],
    );
    scene.attempt("scan", |txn| Ok(txn.scan("t", None)?.count()));
    scene.show();
}

pub fn nans_looked_up() {
    let scene = Scene::with_table(
        "an indexed float column given NaNs of two payloads; lookup of one of them",
        "there is one NaN: both keys are found",
        table("t", vec![key(DataType::Integer), indexed("f", DataType::Float)]),
        &[
            &[Value::Integer(1), Value::Float(f64::from_bits(0x7ff8 << 48))],
            &[Value::Integer(2), Value::Float(f64::from_bits((0x7ff8 << 48) + 1))],
        ],
    );
    scene.attempt("lookup", |txn| {
        txn.lookup_index("t", "f", &[Value::Float(f64::from_bits(0x7ff8 << 48))])
    });
    scene.show();
}
