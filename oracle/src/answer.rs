//! The answer to one request: the original's own, with CODE, AT, GONE and what a refusal carries
//! read off its error and off what it wrote.

use std::panic::{AssertUnwindSafe, catch_unwind};

use crate::code;
use crate::domain;
use crate::places::{self, Places};
use crate::records::{Outside, Request};
use crate::runner::{Done, Runner};
use crate::sql::types::Table;
use crate::storage::Memory;

mod carried;
mod pairs;
mod refused;

pub use carried::Carried;

pub enum Answer {
    Done(Done),
    Refused { code: u8, at: usize, gone: bool, carried: Carried },
}

/// A store that the original keeps.
pub struct Store {
    pub memory: Memory,
    runner: Runner,
    row_places: usize,
    places: Places,
}

impl Store {
    pub fn new(row_places: usize) -> Self {
        let memory = Memory::default();
        let runner = Runner::new(memory.clone());
        Self { memory, runner, row_places, places: Places::default() }
    }

    /// Answers a request. One that is outside the domain leaves the store as it was.
    pub fn answer(&mut self, request: &Request) -> Result<Answer, Outside> {
        let answer = catch_unwind(AssertUnwindSafe(|| self.attempt(request)));
        let answer = answer.unwrap_or_else(|_| Err("the original panicked".into()));
        let judged = answer.and_then(|answer| {
            let writes = self.memory.writes_since(0);
            self.places = self.places.after(&writes, self.row_places)?;
            Ok(answer)
        });
        match &judged {
            Ok(_) => self.memory.keep(),
            Err(_) => self.memory.take_back_to(0),
        }
        judged
    }

    /// Runs a request; what it wrote stands in the journal.
    fn attempt(&self, request: &Request) -> Result<Answer, Outside> {
        let table = request.table().and_then(|name| self.schema(name));
        domain::judge(request, table.as_ref())?;
        let pairs = match (request, &table) {
            (Request::Update { pairs, .. }, Some(table)) => Some(pairs::run(self, table, pairs)?),
            _ => None,
        };
        let outcome = self.runner.run(request);
        let writes = self.memory.writes_since(0);
        if let Some(pairs) = &pairs {
            pairs.must_agree(outcome.as_ref().err(), &writes)?;
        }
        let error = match outcome {
            Ok(done) => return Ok(Answer::Done(done)),
            Err(error) => error,
        };
        let (code, words) = code::of(&error)?;
        let (at, gone) = match (code, request, &pairs) {
            (2..=6 | 20, ..) | (32, Request::Delete { .. }, _) => (0, false),
            (7..=17, Request::Create(schema), _) => (refused::column(schema, words)?, false),
            (21..=23, Request::Insert { table, map, rows }, _) => {
                (refused::unmapped_row(self, table, map.as_deref(), rows, &error)?, false)
            }
            (26..=31, Request::Insert { .. }, _) => (places::rows_stored(&writes), false),
            (26..=32, _, Some(pairs)) => (pairs.accepted, pairs.gone),
            _ => return Err(format!("code {code} at this place")),
        };
        Ok(Answer::Refused { code, at, gone, carried: carried::read(self, code, words)? })
    }

    fn schema(&self, table: &str) -> Option<Table> {
        self.runner.schema(table).expect("a schema that the original wrote")
    }
}
