//! One request, run by the original over a transaction of its own.

use std::collections::{BTreeMap, HashMap};

use crate::error::Result;
use crate::records::Request;
use crate::sql::engine::{Catalog as _, Engine as _, Local, Transaction as _};
use crate::sql::execution::ExecutionResult;
use crate::sql::planner::{Node, Plan};
use crate::sql::types::{Expression, Row, Table, Value};
use crate::storage::Memory;

/// The rows that a request writes out, and the number after `ok`.
pub type Done = (Vec<Row>, usize);

pub struct Runner {
    local: Local<Memory>,
}

impl Runner {
    pub fn new(memory: Memory) -> Self {
        Self { local: Local::new(memory) }
    }

    pub fn schema(&self, table: &str) -> Result<Option<Table>> {
        self.local.begin()?.get_table(table)
    }

    pub fn run(&self, request: &Request) -> Result<Done> {
        let txn = self.local.begin()?;
        match request {
            Request::Create(schema) => {
                txn.create_table(schema.clone())?;
                Ok((Vec::new(), 0))
            }
            Request::Drop { table, if_exists } => {
                let existed = txn.drop_table(table, *if_exists)?;
                Ok((Vec::new(), usize::from(existed)))
            }
            Request::Insert { table, map, rows } => {
                Ok((Vec::new(), self.insert(table, map.as_deref(), rows)?))
            }
            Request::Update { table, pairs } => {
                self.update(table, pairs)?;
                Ok((Vec::new(), pairs.len()))
            }
            Request::Delete { table, keys } => {
                txn.delete(table, keys)?;
                Ok((Vec::new(), keys.len()))
            }
            Request::Get { table, keys } => Ok(listed(txn.get(table, keys)?)),
            Request::Lookup { table, column, values } => {
                let schema = txn.must_get_table(table)?;
                let name = &schema.columns[*column].name;
                let keys = txn.lookup_index(table, name, values)?;
                Ok(listed(keys.into_iter().map(|key| vec![key]).collect()))
            }
            Request::Scan { table } => Ok(listed(txn.scan(table, None)?.collect::<Result<_>>()?)),
            Request::List => {
                let names = txn.list_tables()?.into_iter().map(|table| Value::String(table.name));
                Ok(listed(names.map(|name| vec![name]).collect()))
            }
        }
    }

    /// Through the executor, which maps values to columns. Its plan holds the schema, as a planner
    /// would have fetched it.
    pub fn insert(&self, table: &str, map: Option<&[usize]>, rows: &[Row]) -> Result<usize> {
        let txn = self.local.begin()?;
        let constants = |row: &Row| row.iter().cloned().map(Expression::Constant).collect();
        let plan = Plan::Insert {
            table: txn.must_get_table(table)?,
            // A record names the table column of each value; the plan asks the other way round.
            column_map: map.map(|map| map.iter().copied().zip(0..).collect::<HashMap<_, _>>()),
            source: Node::Values { rows: rows.iter().map(constants).collect() },
        };
        match plan.execute(&txn)? {
            ExecutionResult::Insert { count } => Ok(count as usize),
            _ => unreachable!("an insert answers as one"),
        }
    }

    pub fn update(&self, table: &str, pairs: &[(Value, Row)]) -> Result<()> {
        let pairs: BTreeMap<_, _> = pairs.iter().cloned().collect();
        self.local.begin()?.update(table, pairs)
    }
}

fn listed(rows: Vec<Row>) -> Done {
    let count = rows.len();
    (rows, count)
}
