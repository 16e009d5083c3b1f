//! What a refusal carries besides its numbers, read off the names in the original's message.

use super::Store;
use crate::encoding::Key as _;
use crate::error::Words;
use crate::records::Outside;
use crate::sql::engine::Key;
use crate::sql::types::Value;

pub enum Carried {
    Nothing,
    /// With 20: the referencing table and its first referencing column.
    Column {
        table: String,
        column: usize,
    },
    /// With 32: the referencing table, its key column and the smallest referencing key.
    Row {
        table: String,
        column: usize,
        key: Value,
    },
}

pub fn read(store: &Store, code: u8, words: &Words) -> Result<Carried, Outside> {
    let names = match code {
        20 => (words.numbered(1), words.numbered(2)),
        32 => (words.named("table"), words.named("column")),
        _ => return Ok(Carried::Nothing),
    };
    let (Some(table), Some(column)) = names else {
        return Err("a reference without names".into());
    };
    let schema = store.schema(table).ok_or("a reference from no table")?;
    let place = schema.columns.iter().position(|c| c.name == column);
    let column = place.ok_or("a reference from no column")?;
    let table = schema.name;
    if code == 20 {
        return Ok(Carried::Column { table, column });
    }
    let key = key_that_prints(store, &table, words.named("source_id").unwrap_or_default())?;
    Ok(Carried::Row { table, column, key })
}

/// The stored key whose text the message has; the keys of a table print differently.
fn key_that_prints(store: &Store, table: &str, text: &str) -> Result<Value, Outside> {
    let pairs = store.memory.pairs();
    let keys = pairs.iter().filter_map(|(key, _)| match Key::decode(key) {
        Ok(Key::Row(name, key)) if name == table => Some(key.into_owned()),
        _ => None,
    });
    let mut keys = keys.filter(|key| key.to_string() == text);
    match (keys.next(), keys.next()) {
        (Some(key), None) => Ok(key),
        _ => Err(format!("no single key of {table} prints as {text}")),
    }
}
