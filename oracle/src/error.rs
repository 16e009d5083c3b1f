//! Stand-in for the original's errors. A message is kept as its template and the texts of its
//! holes; the macros of the crate `refusal` make them.

use std::fmt::{Display, Formatter};

pub type Result<T> = std::result::Result<T, Error>;

#[derive(Clone, Debug, PartialEq)]
pub enum Error {
    InvalidData(Words),
    InvalidInput(Words),
    /// What a stand-in cannot do; no request of the domain leads here.
    NotHere(String),
}

#[derive(Clone, Debug, PartialEq)]
pub struct Words {
    /// The message as the original's source has it, holes and all.
    pub template: &'static str,
    /// The name (empty if it has none) and the text of each hole, in order.
    pub fields: Vec<(&'static str, String)>,
}

impl Words {
    /// The text of the hole with this name.
    pub fn named(&self, name: &str) -> Option<&str> {
        self.fields.iter().find(|(n, _)| *n == name).map(|(_, text)| text.as_str())
    }

    /// The text of the hole with this number.
    pub fn numbered(&self, number: usize) -> Option<&str> {
        self.fields.get(number).map(|(_, text)| text.as_str())
    }
}

impl Display for Words {
    fn fmt(&self, f: &mut Formatter<'_>) -> std::fmt::Result {
        let mut rest = self.template;
        for (_, text) in &self.fields {
            let (before, after) = rest.split_once('{').unwrap_or((rest, ""));
            write!(f, "{before}{text}")?;
            rest = after.split_once('}').map_or("", |(_, after)| after);
        }
        f.write_str(rest)
    }
}

impl Display for Error {
    fn fmt(&self, f: &mut Formatter<'_>) -> std::fmt::Result {
        match self {
            Self::InvalidData(words) => write!(f, "invalid data: {words}"),
            Self::InvalidInput(words) => write!(f, "invalid input: {words}"),
            Self::NotHere(text) => write!(f, "no part of the oracle: {text}"),
        }
    }
}

impl std::error::Error for Error {}

/// The original's macros stand for an error and for a result alike.
impl<T> From<Error> for Result<T> {
    fn from(error: Error) -> Self {
        Err(error)
    }
}

impl From<regex::Error> for Error {
    fn from(error: regex::Error) -> Self {
        Self::NotHere(error.to_string())
    }
}
