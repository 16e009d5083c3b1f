//! The whole store in document 01's byte layout, built from the tables, rows and index entries
//! that the original wrote into the map.

use std::collections::BTreeSet;

use crate::encoding::{Key as _, Value as _};
use crate::records::{DEFAULT, INDEX, NULLABLE, REFERENCES, UNIQUE};
use crate::sql::engine::Key;
use crate::sql::types::{Column, DataType, Row, Table, Value};
use crate::storage::Memory;

const HEADER: usize = 12;
const TABLE_PLACES: usize = 16;
const TABLE: usize = 651;
const ROW: usize = 233;
const ENTRY: usize = 78;
const NAME: usize = 25;
const CELL: usize = 26;
const COLUMNS: usize = 8;

pub fn length(row_places: usize) -> usize {
    HEADER + TABLE_PLACES * TABLE + row_places * (ROW + 7 * ENTRY)
}

/// What stands in the map, each part in 01's order.
#[derive(Default)]
struct Contents {
    tables: Vec<Table>,
    rows: Vec<(String, Row)>,
    entries: Vec<Entry>,
}

/// An index entry.
struct Entry {
    table: String,
    column: usize,
    value: Value,
    key: Value,
}

pub fn of(memory: &Memory, row_places: usize) -> Vec<u8> {
    let contents = contents(memory);
    let mut image = vec![0; length(row_places)];
    let (header, rest) = image.split_at_mut(HEADER);
    let (tables, rest) = rest.split_at_mut(TABLE_PLACES * TABLE);
    let (rows, entries) = rest.split_at_mut(row_places * ROW);

    header[..4].copy_from_slice(&(length(row_places) as u32).to_be_bytes());
    header[4] = 1;
    header[5] = contents.tables.len() as u8;
    header[6..8].copy_from_slice(&(contents.rows.len() as u16).to_be_bytes());
    header[8..].copy_from_slice(&(contents.entries.len() as u32).to_be_bytes());

    fill(tables, TABLE, &contents.tables, put_table);
    fill(rows, ROW, &contents.rows, |place, (table, row)| {
        put_name(place, table);
        fill(&mut place[NAME..], CELL, row, put_cell);
    });
    fill(entries, ENTRY, &contents.entries, |place, entry| {
        put_name(place, &entry.table);
        place[NAME] = entry.column as u8;
        put_cell(&mut place[NAME + 1..], &entry.value);
        put_cell(&mut place[NAME + 1 + CELL..], &entry.key);
    });
    image
}

fn contents(memory: &Memory) -> Contents {
    let mut contents = Contents::default();
    for (key, value) in memory.pairs() {
        // Tables come before entries and rows in the map.
        match Key::decode(&key).expect("the original's own key") {
            Key::Table(_) => contents.tables.push(Table::decode(&value).expect("a schema")),
            Key::Index(table, column, of) => {
                let column = indexed_column(&contents.tables, &table, &column);
                for key in BTreeSet::<Value>::decode(&value).expect("keys") {
                    let (table, value) = (table.clone().into_owned(), of.clone().into_owned());
                    contents.entries.push(Entry { table, column, value, key });
                }
            }
            Key::Row(table, key) => {
                let row = Row::decode(&value).expect("a row");
                let schema = contents.tables.iter().find(|t| t.name == table).expect("its table");
                assert_eq!(row[schema.primary_key], *key, "a row stands under its own key");
                contents.rows.push((table.into_owned(), row));
            }
        }
    }
    // The map has columns by name; the layout has them by number.
    contents.entries.sort_by(|a, b| order(a).cmp(&order(b)));
    contents
}

fn order(entry: &Entry) -> (&str, usize, Rank<'_>, Rank<'_>) {
    (&entry.table, entry.column, rank(&entry.value), rank(&entry.key))
}

fn indexed_column(tables: &[Table], table: &str, column: &str) -> usize {
    let schema = tables.iter().find(|t| t.name == table).expect("an entry's table");
    let place = schema.columns.iter().position(|c| c.name == column && c.index);
    place.expect("an entry's column")
}

/// Kind, number and text: ordered as 01 orders values.
type Rank<'a> = (u8, u64, &'a str);

fn rank(value: &Value) -> Rank<'_> {
    const SIGN: u64 = 1 << 63;
    let (number, text) = match value {
        Value::Null => (0, ""),
        Value::Boolean(boolean) => (u64::from(*boolean), ""),
        Value::Integer(integer) => (*integer as u64 ^ SIGN, ""),
        Value::Float(float) if float.to_bits() & SIGN == 0 => (float.to_bits() ^ SIGN, ""),
        Value::Float(float) => (!float.to_bits(), ""),
        Value::String(text) => (0, text.as_str()),
    };
    (kind(value), number, text)
}

fn put_table(place: &mut [u8], table: &Table) {
    put_name(place, &table.name);
    place[NAME] = table.primary_key as u8;
    place[NAME + 1] = table.columns.len() as u8;
    assert!(table.columns.len() <= COLUMNS, "at most eight columns");
    fill(&mut place[NAME + 2..], NAME + 2 + CELL + NAME, &table.columns, put_column);
}

fn put_column(place: &mut [u8], column: &Column) {
    put_name(place, &column.name);
    place[NAME] = match column.datatype {
        DataType::Boolean => 1,
        DataType::Integer => 2,
        DataType::Float => 3,
        DataType::String => 4,
    };
    let flags = [
        (column.nullable, NULLABLE),
        (column.default.is_some(), DEFAULT),
        (column.unique, UNIQUE),
        (column.index, INDEX),
        (column.references.is_some(), REFERENCES),
    ];
    place[NAME + 1] = flags.iter().filter(|(set, _)| *set).map(|(_, flag)| flag).sum();
    if let Some(default) = &column.default {
        put_cell(&mut place[NAME + 2..], default);
    }
    if let Some(target) = &column.references {
        put_name(&mut place[NAME + 2 + CELL..], target);
    }
}

fn put_name(place: &mut [u8], name: &str) {
    place[0] = name.len() as u8;
    place[1..][..name.len()].copy_from_slice(name.as_bytes());
}

fn put_cell(cell: &mut [u8], value: &Value) {
    cell[0] = kind(value);
    let (about, content) = cell.split_at_mut(2);
    match value {
        Value::Null => {}
        Value::Boolean(boolean) => content[0] = u8::from(*boolean),
        Value::Integer(integer) => content[..8].copy_from_slice(&integer.to_be_bytes()),
        Value::Float(float) => content[..8].copy_from_slice(&float.to_bits().to_be_bytes()),
        Value::String(text) => {
            about[1] = text.len() as u8;
            content[..text.len()].copy_from_slice(text.as_bytes());
        }
    }
}

fn kind(value: &Value) -> u8 {
    match value {
        Value::Null => 0,
        Value::Boolean(_) => 1,
        Value::Integer(_) => 2,
        Value::Float(_) => 3,
        Value::String(_) => 4,
    }
}

/// Writes each item into its place of an area.
fn fill<T>(area: &mut [u8], width: usize, items: &[T], put: impl Fn(&mut [u8], &T)) {
    assert!(items.len() * width <= area.len(), "room enough");
    for (place, item) in area.chunks_exact_mut(width).zip(items) {
        put(place, item);
    }
}
