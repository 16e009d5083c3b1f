//! AT of a refused create, and of a row that the original could not map to its table.

use super::Store;
use crate::error::{Error, Words};
use crate::records::Outside;
use crate::sql::types::{Row, Table};

/// The column that a refused schema's message names; only 7 has no name to name.
pub fn column(schema: &Table, words: &Words) -> Result<usize, Outside> {
    let name = words.named("cname").unwrap_or_default();
    let place = schema.columns.iter().position(|column| column.name == name);
    place.ok_or_else(|| format!("no column {name}"))
}

/// The first row that is refused with this error when it comes alone.
pub fn unmapped_row(
    store: &Store,
    table: &str,
    map: Option<&[usize]>,
    rows: &[Row],
    error: &Error,
) -> Result<usize, Outside> {
    let mark = store.memory.mark();
    let refused = |row: &Row| {
        let alone = store.runner.insert(table, map, std::slice::from_ref(row));
        store.memory.take_back_to(mark);
        alone.is_err_and(|alone| alone == *error)
    };
    rows.iter().position(refused).ok_or_else(|| "no row is refused alone".into())
}
