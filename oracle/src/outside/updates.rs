//! Updates with old keys, rows or an order that the domain leaves out.

use std::collections::BTreeMap;

use super::scene::{Scene, indexed, key, not_null, table};
use crate::sql::engine::Transaction as _;
use crate::sql::types::{Column, DataType, Table, Value};

pub fn old_key_of_another_kind() {
    for (title, column) in [
        ("(1, 5) without an index; update float 1.0 to (1, 6)", plain()),
        ("(1, 5) with an index; update float 1.0 to (1, 6)", with_index()),
    ] {
        let scene = one_row(title, "the keys differ: nothing is removed, key 1 exists, 27", column);
        scene.attempt("update", |txn| txn.update("t", pairs([(Value::Float(1.0), vec![1, 6])])));
        scene.show();
    }
}

pub fn absent_row() {
    for (title, column) in [
        ("(1, 5) without an index; update 2 to (2, 6)", plain()),
        ("(1, 5) with an index; update 2 to (2, 6)", with_index()),
    ] {
        let scene = one_row(title, "a same-key update of an absent row, 34", column);
        scene.attempt("update", |txn| txn.update("t", pairs([(Value::Integer(2), vec![2, 6])])));
        scene.show();
    }
}

pub fn absent_row_refused() {
    let scene = one_row(
        "(1, 5); same-key pairs of absent rows that break an earlier rule",
        "26 for NULL to NULL, 28 for a boolean: these come before 34",
        with_index(),
    );
    scene.attempt("update NULL to (NULL, 6)", |txn| {
        txn.update("t", BTreeMap::from([(Value::Null, vec![Value::Null, Value::Integer(6)])]))
    });
    scene.attempt("update 2 to (2, TRUE)", |txn| {
        let row = vec![Value::Integer(2), Value::Boolean(true)];
        txn.update("t", BTreeMap::from([(Value::Integer(2), row)]))
    });
    scene.show();
}

pub fn short_row() {
    for (title, old, row) in [
        ("(1, 5); update 1 to (2), a short row with another key", 1, vec![2]),
        ("(1, 5); update 1 to (1), a short row with the same key", 1, vec![1]),
        ("(1, 5); update 1 to (), an empty row", 1, vec![]),
        ("(1, 5); update 1 to (2, 6, 7), a long row with another key", 1, vec![2, 6, 7]),
    ] {
        let scene = one_row(title, "25, and the store is unchanged", with_index());
        scene.attempt("update", |txn| txn.update("t", pairs([(Value::Integer(old), row)])));
        scene.show();
    }
}

pub fn keys_not_rising() {
    let title = "(1, 5); update 2 to (3, 6), then 1 to (2, 7)";
    let scene = one_row(title, "35, and the store is unchanged", plain());
    scene.attempt("update", |txn| {
        let falling = [(Value::Integer(2), vec![3, 6]), (Value::Integer(1), vec![2, 7])];
        txn.update("t", pairs(falling))
    });
    scene.show();

    let title = "(1, 5); update 1 to (1, 6), then 1 to (1, 7)";
    let scene = one_row(title, "35, and the store is unchanged", plain());
    scene.attempt("update", |txn| {
        let repeated = [(Value::Integer(1), vec![1, 6]), (Value::Integer(1), vec![1, 7])];
        txn.update("t", pairs(repeated))
    });
    scene.show();
}

fn one_row(title: &str, document: &str, column: Column) -> Scene {
    Scene::with_table(title, document, schema(column), &[&[Value::Integer(1), Value::Integer(5)]])
}

fn schema(column: Column) -> Table {
    table("t", vec![key(DataType::Integer), column])
}

fn plain() -> Column {
    not_null("p", DataType::Integer)
}

fn with_index() -> Column {
    indexed("p", DataType::Integer)
}

/// The original takes pairs as a map, which orders them and keeps the last of equal old keys.
fn pairs<const N: usize>(pairs: [(Value, Vec<i64>); N]) -> BTreeMap<Value, Vec<Value>> {
    let row = |row: Vec<i64>| row.into_iter().map(Value::Integer).collect();
    pairs.into_iter().map(|(old, new)| (old, row(new))).collect()
}
