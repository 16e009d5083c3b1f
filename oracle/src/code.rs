//! From the original's messages to document 01's numbers. A message is known by its template, so
//! names and values inside it can't confuse.

use crate::error::{Error, Words};
use crate::records::Outside;

const CODES: [(u8, &str); 28] = [
    (2, "table {table} does not exist"),
    (3, "table {} already exists"),
    (4, "table name can't be empty"),
    (5, "table has no columns"),
    (6, "invalid primary key index"),
    (7, "column name can't be empty"),
    (8, "primary key {cname} cannot be nullable"),
    (9, "primary key {cname} must be unique"),
    (10, "primary key {cname} can't have an index"),
    (11, "nullable column {cname} must have a default value"),
    (12, "invalid NULL default for non-nullable column {cname}"),
    (13, "invalid default type {vtype} for {ctype} column {cname}"),
    (14, "unique column {cname} must have a secondary index"),
    (15, "reference column {cname} must have a secondary index"),
    (16, "unknown table {reference} referenced by column {cname}"),
    (17, "can't reference {reftype} primary key of {reference} from {ctype} column {cname}"),
    (20, "table {} is referenced from {}.{}"),
    (21, "too many values for table {}"),
    (22, "column and value counts do not match"),
    (23, "no value given for column {} with no default"),
    (25, "invalid row size for table {}"),
    (26, "invalid primary key {id}"),
    (27, "primary key {id} already exists"),
    (28, "invalid datatype {vtype} for {ctype} column {cname}"),
    (29, "NULL value not allowed for column {cname}"),
    (30, "reference {v} not in table {target}"),
    (31, "value {value} already in unique column {cname}"),
    (32, "row referenced by {table}.{column}={source_id}"),
];

/// The number of an error, and its words.
pub fn of(error: &Error) -> Result<(u8, &Words), Outside> {
    let Error::InvalidInput(words) = error else {
        return Err(format!("an error without a number: {error}"));
    };
    match CODES.iter().find(|(_, template)| *template == words.template) {
        Some((code, _)) => Ok((*code, words)),
        None => Err(format!("an error without a number: {error}")),
    }
}

#[cfg(test)]
mod tests {
    use super::CODES;

    /// Each template stands in the original, once (2 comes from two places), and each rule of a
    /// schema or a row that the original refuses by has a number.
    #[test]
    fn templates_are_the_originals() {
        let read = |file: &str| {
            let path = format!("{}/src/sql/{file}", env!("TOYDB_SRC"));
            std::fs::read_to_string(path).expect("an original file")
        };
        let schema = read("types/schema.rs");
        let local = read("engine/local.rs");
        let all =
            schema.clone() + &local + &read("engine/engine.rs") + &read("execution/executor.rs");
        for (code, template) in CODES {
            let times = all.matches(&format!("\"{template}\"")).count();
            assert_eq!(times, if code == 2 { 2 } else { 1 }, "{template}");
        }
        // local.rs has one message more, of a filter.
        let numbered = |code: u8| (4..=17).contains(&code) || (25..=31).contains(&code);
        let of_schema = CODES.iter().filter(|(code, _)| numbered(*code)).count();
        assert_eq!(schema.matches("errinput!(").count(), of_schema);
        assert_eq!(local.matches("errinput!(").count(), 4 + 1);
    }
}
