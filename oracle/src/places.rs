//! Places in use: rows and tables, followed through what a request wrote. The Rust has no limits,
//! so it cannot say 01's codes 19 and 33.

use crate::encoding::Key as _;
use crate::records::Outside;
use crate::sql::engine::Key;
use crate::storage::Write;

#[derive(Clone, Copy, Default)]
pub struct Places {
    tables: usize,
    rows: usize,
}

impl Places {
    /// The places in use after these writes, if there was room at every moment.
    pub fn after(mut self, writes: &[Write], row_places: usize) -> Result<Self, Outside> {
        for write in writes {
            let count = match key(write) {
                Key::Table(_) => &mut self.tables,
                Key::Row(..) => &mut self.rows,
                Key::Index(..) => continue,
            };
            match (&write.old, &write.new) {
                (None, Some(_)) => *count += 1,
                (Some(_), None) => *count -= 1,
                _ => {}
            }
            if self.tables > 16 {
                return Err("a seventeenth table".into());
            }
            if self.rows > row_places {
                return Err("more rows than row places".into());
            }
        }
        Ok(self)
    }
}

/// How many rows these writes store: an accepted row of an insert is stored once, a refused one not.
pub fn rows_stored(writes: &[Write]) -> usize {
    writes.iter().filter(|write| is_row(write) && write.new.is_some()).count()
}

/// Whether one of these writes took away a row that was stored.
pub fn row_removed(writes: &[Write]) -> bool {
    writes.iter().any(|write| is_row(write) && write.old.is_some() && write.new.is_none())
}

fn is_row(write: &Write) -> bool {
    matches!(key(write), Key::Row(..))
}

fn key(write: &Write) -> Key<'_> {
    Key::decode(&write.key).expect("the original's own key")
}
