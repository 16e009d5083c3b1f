//! A small store of the original's for one case, and the printing of what happens in it.

use std::collections::BTreeSet;
use std::fmt::Debug;
use std::panic::{AssertUnwindSafe, catch_unwind};

use crate::encoding::{Key as _, Value as _};
use crate::error::Result;
use crate::lines;
use crate::sql::engine::{Catalog as _, Engine, Key, Local, Transaction as _};
use crate::sql::types::{Column, DataType, Row, Table, Value};
use crate::storage::Memory;

pub struct Scene {
    memory: Memory,
    local: Local<Memory>,
}

type Transaction = <Local<Memory> as Engine<'static>>::Transaction;

impl Scene {
    pub fn new(title: &str, document: &str) -> Self {
        println!("\n{title}\n  01:   {document}");
        let memory = Memory::default();
        Self { local: Local::new(memory.clone()), memory }
    }

    /// A scene with one table and its rows, all of them in order.
    pub fn with_table(title: &str, document: &str, table: Table, rows: &[&[Value]]) -> Self {
        let scene = Self::new(title, document);
        let txn = scene.local.begin().expect("a transaction");
        let name = table.name.clone();
        txn.create_table(table).expect("a good schema");
        let rows = rows.iter().map(|row| row.to_vec()).collect();
        txn.insert(&name, rows).expect("good rows");
        scene
    }

    /// Prints what the original makes of an action: its answer, its refusal or its panic.
    pub fn attempt<T: Debug>(&self, what: &str, action: impl FnOnce(&Transaction) -> Result<T>) {
        let txn = self.local.begin().expect("a transaction");
        let outcome = match catch_unwind(AssertUnwindSafe(|| action(&txn))) {
            Ok(Ok(answer)) => format!("ok {answer:?}"),
            Ok(Err(error)) => format!("refused, {error}"),
            Err(panic) => {
                let text = panic.downcast_ref::<String>().map(String::as_str);
                let text = text.or(panic.downcast_ref::<&str>().copied());
                format!("panic, {}", text.unwrap_or("without a text"))
            }
        };
        println!("  Rust: {what}: {outcome}");
    }

    /// Prints the rows and index entries that are stored.
    pub fn show(&self) {
        for (key, value) in self.memory.pairs() {
            match Key::decode(&key).expect("a key") {
                Key::Table(_) => {}
                Key::Index(table, column, of) => {
                    let keys = BTreeSet::<Value>::decode(&value).expect("keys");
                    let keys: Vec<_> = keys.iter().map(lines::value).collect();
                    let of = lines::value(&of);
                    println!("        entry {table}.{column} {of}: keys {}", keys.join(", "));
                }
                Key::Row(table, key) => {
                    let row = lines::row(&Row::decode(&value).expect("a row"));
                    println!("        {table} under {}: {row}", lines::value(&key));
                }
            }
        }
    }
}

pub fn table(name: &str, columns: Vec<Column>) -> Table {
    Table { name: name.into(), primary_key: 0, columns }
}

pub fn key(datatype: DataType) -> Column {
    Column { unique: true, ..not_null("id", datatype) }
}

pub fn not_null(name: &str, datatype: DataType) -> Column {
    Column {
        name: name.into(),
        datatype,
        nullable: false,
        default: None,
        unique: false,
        index: false,
        references: None,
    }
}

pub fn indexed(name: &str, datatype: DataType) -> Column {
    Column { index: true, ..not_null(name, datatype) }
}

pub fn unique(name: &str, datatype: DataType) -> Column {
    Column { unique: true, ..indexed(name, datatype) }
}

/// A nullable column that references a table.
pub fn reference(name: &str, datatype: DataType, target: &str) -> Column {
    Column {
        nullable: true,
        default: Some(Value::Null),
        references: Some(target.into()),
        ..indexed(name, datatype)
    }
}
