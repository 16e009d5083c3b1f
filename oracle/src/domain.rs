//! The compared domain, judged from a request and the schemas before it is run. Two of its clauses
//! need the run itself: same-key pairs (answer/pairs.rs) and room enough (places.rs).

use std::collections::BTreeSet;

use crate::records::{Outside, Request};
use crate::sql::types::{Row, Table, Value};

/// `table` is the stored schema of the table that the request names, if it is stored.
pub fn judge(request: &Request, table: Option<&Table>) -> Result<(), Outside> {
    match (request, table) {
        (Request::Create(schema), _) => distinct_names(schema),
        (Request::Insert { map, rows, .. }, Some(table)) => {
            if let Some(map) = map {
                good_map(map, table)?;
            }
            for row in rows {
                if let Some(key) = key_of_inserted(map.as_deref(), row, table) {
                    key_kind(key, table)?;
                }
            }
            Ok(())
        }
        (Request::Update { pairs, .. }, Some(table)) => {
            for (old, row) in pairs {
                if row.len() != table.columns.len() {
                    return Err("an update with a row that is not full".into());
                }
                key_kind(old, table)?;
                key_kind(&row[table.primary_key], table)?;
            }
            if pairs.windows(2).any(|two| two[0].0 >= two[1].0) {
                return Err("an update whose old keys don't rise".into());
            }
            Ok(())
        }
        (Request::Delete { keys, .. } | Request::Get { keys, .. }, Some(table)) => {
            keys.iter().try_for_each(|key| key_kind(key, table))
        }
        (Request::Lookup { .. }, None) => Err("a lookup in an unknown table".into()),
        (Request::Lookup { column, values, .. }, Some(table)) => {
            let number = *column;
            match table.columns.get(number) {
                Some(column) if column.index => {
                    values.iter().try_for_each(|value| kind(value, table, number, "lookup value"))
                }
                _ => Err("a lookup of a column that is not indexed".into()),
            }
        }
        // Without a stored table nothing of the request is looked at but its name.
        _ => Ok(()),
    }
}

fn distinct_names(schema: &Table) -> Result<(), Outside> {
    let names: BTreeSet<_> = schema.columns.iter().map(|column| &column.name).collect();
    if names.len() == schema.columns.len() { Ok(()) } else { Err("a column name twice".into()) }
}

fn good_map(map: &[usize], table: &Table) -> Result<(), Outside> {
    if map.iter().any(|&column| column >= table.columns.len()) {
        return Err("a map column out of range".into());
    }
    if map.iter().collect::<BTreeSet<_>>().len() != map.len() {
        return Err("a map column twice".into());
    }
    Ok(())
}

/// What an insert's row gives for the key column; nothing if that column takes its default, which
/// create has tested.
fn key_of_inserted<'a>(map: Option<&[usize]>, row: &'a Row, table: &Table) -> Option<&'a Value> {
    let place = match map {
        Some(map) => map.iter().position(|&column| column == table.primary_key)?,
        None => table.primary_key,
    };
    row.get(place)
}

fn key_kind(key: &Value, table: &Table) -> Result<(), Outside> {
    kind(key, table, table.primary_key, "key")
}

fn kind(value: &Value, table: &Table, column: usize, what: &str) -> Result<(), Outside> {
    match value.datatype() {
        Some(kind) if kind != table.columns[column].datatype => {
            Err(format!("a {what} of another kind than its column"))
        }
        _ => Ok(()),
    }
}
