//! An update's pairs, run alone and one after the other before all of them are run at once. So it
//! is seen that same-key pairs meet stored rows, which pair is refused, and whether its old row
//! is gone.

use std::slice;

use super::Store;
use crate::encoding::Key as _;
use crate::error::Error;
use crate::places;
use crate::records::Outside;
use crate::sql::engine::Key;
use crate::sql::types::{Row, Table, Value};
use crate::storage::Write;

pub struct PairByPair {
    /// How many pairs were accepted; the next one, if there is one, was refused.
    pub accepted: usize,
    /// Whether the refused pair removed a row.
    pub gone: bool,
    error: Option<Error>,
    writes: Vec<Write>,
}

/// Leaves the store as it was, unless a pair is outside the domain: then the journal has the rest.
pub fn run(store: &Store, table: &Table, pairs: &[(Value, Row)]) -> Result<PairByPair, Outside> {
    let (mut accepted, mut gone, mut error) = (0, false, None);
    let mut places = store.places;
    let start = store.memory.mark();
    for pair in pairs {
        let (old, row) = pair;
        let row_key = Key::Row((&table.name).into(), old.into()).encode();
        if *old == row[table.primary_key] && !store.memory.contains(&row_key) {
            return Err("a same-key pair without a stored row".into());
        }
        let mark = store.memory.mark();
        error = store.runner.update(&table.name, slice::from_ref(pair)).err();
        let writes = store.memory.writes_since(mark);
        places = places.after(&writes, store.row_places)?;
        if error.is_some() {
            gone = places::row_removed(&writes);
            break;
        }
        accepted += 1;
    }
    let writes = store.memory.writes_since(start);
    store.memory.take_back_to(start);
    Ok(PairByPair { accepted, gone, error, writes })
}

impl PairByPair {
    /// All pairs at once must have done the same.
    pub fn must_agree(&self, error: Option<&Error>, writes: &[Write]) -> Result<(), Outside> {
        match self.error.as_ref() == error && self.writes == writes {
            true => Ok(()),
            false => Err("an update's pairs alone and together differ".into()),
        }
    }
}
