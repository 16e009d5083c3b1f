//! Column names twice, lookups without an index, and odd maps.

use std::collections::HashMap;

use super::scene::{Scene, indexed, key, not_null, table};
use crate::sql::engine::{Catalog as _, Transaction as _};
use crate::sql::planner::{Node, Plan};
use crate::sql::types::{Column, DataType, Expression, Value};

pub fn column_name_twice() {
    let scene = Scene::new("t(id, p, p), both p indexed; insert (1, 5, 6)", "18 on create");
    let column = || indexed("p", DataType::Integer);
    scene.attempt("create", |txn| {
        txn.create_table(table("t", vec![key(DataType::Integer), column(), column()]))
    });
    scene.attempt("insert", |txn| txn.insert("t", vec![integers(&[1, 5, 6])]));
    scene.attempt("lookup of 6 in p", |txn| txn.lookup_index("t", "p", &integers(&[6])));
    scene.show();
    scene.attempt("update 1 to (1, 6, 5)", |txn| {
        txn.update("t", [(Value::Integer(1), integers(&[1, 6, 5]))].into())
    });
    scene.show();
}

pub fn lookup_without_index() {
    let scene = Scene::with_table(
        "t(id, p) with (1, 5); lookups that have no index",
        "37 for a column without an index, for the key and out of range; 2 for an unknown table",
        table("t", vec![key(DataType::Integer), not_null("p", DataType::Integer)]),
        &[&[Value::Integer(1), Value::Integer(5)]],
    );
    scene.attempt("p", |txn| txn.lookup_index("t", "p", &integers(&[5])));
    scene.attempt("the key", |txn| txn.lookup_index("t", "id", &integers(&[1])));
    scene.attempt("a column that is not there", |txn| txn.lookup_index("t", "q", &integers(&[5])));
    scene.attempt("an unknown table", |txn| txn.lookup_index("u", "p", &integers(&[5])));
}

pub fn map_columns() {
    let document = "24, and the store is unchanged";
    let schema = || {
        let default =
            Column { default: Some(Value::Integer(9)), ..not_null("p", DataType::Integer) };
        table("t", vec![key(DataType::Integer), default])
    };
    for (title, map) in [
        ("t(id, p default 9); insert (1, 5) with map 0, 2", [0, 2]),
        ("t(id, p default 9); insert (1, 5) with map 0, 0", [0, 0]),
    ] {
        let scene = Scene::with_table(title, document, schema(), &[]);
        scene.attempt("insert", |txn| {
            let plan = Plan::Insert {
                table: schema(),
                column_map: Some(map.into_iter().zip(0..).collect::<HashMap<_, _>>()),
                source: Node::Values {
                    rows: vec![integers(&[1, 5]).into_iter().map(Expression::Constant).collect()],
                },
            };
            plan.execute(txn).map(|_| ())
        });
        scene.show();
    }
}

fn integers(numbers: &[i64]) -> Vec<Value> {
    numbers.iter().copied().map(Value::Integer).collect()
}
