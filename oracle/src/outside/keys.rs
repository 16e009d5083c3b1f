//! Keys of another kind than their column.

use super::scene::{Scene, key, reference, table};
use crate::sql::engine::Transaction as _;
use crate::sql::types::{DataType, Table, Value};

pub fn deleted_with_a_float() {
    let scene = Scene::with_table(
        "t(id, p references t) with (2, NULL), (1, 2); delete [2, float 1.0]",
        "float 1.0 is not the key 1: row 1 references row 2, code 32",
        self_referencing(),
        &[&[Value::Integer(2), Value::Null], &[Value::Integer(1), Value::Integer(2)]],
    );
    scene.attempt("delete", |txn| txn.delete("t", &[Value::Integer(2), Value::Float(1.0)]));
    scene.show();
}

pub fn other_kind_read() {
    let scene = Scene::with_table(
        "t(id, p references t) with (1, NULL); get [float 1.0], delete [float 1.0]",
        "no row has that key: nothing is got, nothing deleted",
        self_referencing(),
        &[&[Value::Integer(1), Value::Null]],
    );
    scene.attempt("get", |txn| txn.get("t", &[Value::Float(1.0)]));
    scene.attempt("delete", |txn| txn.delete("t", &[Value::Float(1.0)]));
    scene.show();
}

fn self_referencing() -> Table {
    table("t", vec![key(DataType::Integer), reference("p", DataType::Integer, "t")])
}
