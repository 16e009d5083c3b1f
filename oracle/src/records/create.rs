//! The operands of a create: a schema.

use super::reader::Reader;
use super::{Outside, broken};
use crate::sql::types::{Column, DataType, Table};

/// Flags of a column, as records and the store have them.
pub const NULLABLE: u8 = 1;
pub const DEFAULT: u8 = 2;
pub const UNIQUE: u8 = 4;
pub const INDEX: u8 = 8;
pub const REFERENCES: u8 = 16;

pub fn schema(reader: &mut Reader) -> Result<Table, Outside> {
    let name = reader.name()?;
    let primary_key = reader.byte()? as usize;
    let columns = reader.counted(column)?;
    if columns.len() > 8 {
        return Err(broken("more than 8 columns"));
    }
    Ok(Table { name, primary_key, columns })
}

fn column(reader: &mut Reader) -> Result<Column, Outside> {
    let name = reader.name()?;
    let datatype = match reader.byte()? {
        1 => DataType::Boolean,
        2 => DataType::Integer,
        3 => DataType::Float,
        4 => DataType::String,
        _ => return Err(broken("unknown column kind")),
    };
    let flags = reader.byte()?;
    if flags > 31 {
        return Err(broken("flags above 31"));
    }
    let has = |flag| flags & flag != 0;
    Ok(Column {
        name,
        datatype,
        nullable: has(NULLABLE),
        default: if has(DEFAULT) { Some(reader.value()?) } else { None },
        unique: has(UNIQUE),
        index: has(INDEX),
        references: if has(REFERENCES) { Some(reader.name()?) } else { None },
    })
}
