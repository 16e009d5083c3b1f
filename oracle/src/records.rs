//! Requests as document 01 packs them. A record that 01 calls broken, or that holds a text or a
//! float outside the compared domain, gives the reason instead of a request.

use crate::sql::types::{Row, Table, Value};

mod create;
mod reader;

pub use create::{DEFAULT, INDEX, NULLABLE, REFERENCES, UNIQUE};
use reader::Reader;

/// Why a request is outside the compared domain.
pub type Outside = String;

pub enum Request {
    Create(Table),
    Drop { table: String, if_exists: bool },
    Insert { table: String, map: Option<Vec<usize>>, rows: Vec<Row> },
    Update { table: String, pairs: Vec<(Value, Row)> },
    Delete { table: String, keys: Vec<Value> },
    Get { table: String, keys: Vec<Value> },
    Lookup { table: String, column: usize, values: Vec<Value> },
    Scan { table: String },
    List,
}

impl Request {
    /// The table that the request names.
    pub fn table(&self) -> Option<&str> {
        match self {
            Self::Create(Table { name: table, .. })
            | Self::Drop { table, .. }
            | Self::Insert { table, .. }
            | Self::Update { table, .. }
            | Self::Delete { table, .. }
            | Self::Get { table, .. }
            | Self::Lookup { table, .. }
            | Self::Scan { table } => Some(table),
            Self::List => None,
        }
    }
}

/// Reads the record that `rest` begins with and moves past it; nothing at the end of the input.
pub fn next(rest: &mut &[u8]) -> Option<Result<Request, Outside>> {
    if rest.is_empty() {
        return None;
    }
    let Some((&length, after)) = rest.split_first_chunk() else {
        return Some(Err(broken("half a length")));
    };
    let length = u16::from_be_bytes(length) as usize;
    if !(2..=4096).contains(&length) {
        return Some(Err(broken("length outside range")));
    }
    let Some((record, after)) = after.split_at_checked(length) else {
        return Some(Err(broken("cut off")));
    };
    *rest = after;
    Some(request(record))
}

fn request(record: &[u8]) -> Result<Request, Outside> {
    let mut reader = Reader::new(record);
    if reader.byte()? != 1 {
        return Err(broken("version"));
    }
    let request = match reader.byte()? {
        1 => Request::Create(create::schema(&mut reader)?),
        2 => Request::Drop { table: reader.name()?, if_exists: reader.flag()? },
        3 => {
            let table = reader.name()?;
            let map = match reader.flag()? {
                true => Some(reader.counted(|reader| Ok(reader.byte()? as usize))?),
                false => None,
            };
            Request::Insert { table, map, rows: reader.counted(Reader::values)? }
        }
        4 => {
            let table = reader.name()?;
            let pairs = reader.counted(|reader| Ok((reader.value()?, reader.values()?)))?;
            Request::Update { table, pairs }
        }
        5 => Request::Delete { table: reader.name()?, keys: reader.values()? },
        6 => Request::Get { table: reader.name()?, keys: reader.values()? },
        7 => Request::Lookup {
            table: reader.name()?,
            column: reader.byte()? as usize,
            values: reader.values()?,
        },
        8 => Request::Scan { table: reader.name()? },
        9 => Request::List,
        _ => return Err(broken("unknown operation")),
    };
    reader.end()?;
    Ok(request)
}

/// The Rust has no records, so it cannot say 01's code 1.
fn broken(what: &str) -> Outside {
    format!("broken record: {what}")
}
