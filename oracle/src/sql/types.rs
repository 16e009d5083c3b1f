//! The original's schemas, values and expressions.

include!(concat!(env!("OUT_DIR"), "/types.rs"));

pub use expression::Expression;
pub use schema::{Column, Table};
pub use value::{DataType, Label, Row, Rows, Value};
