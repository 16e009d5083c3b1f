//! Stand-in for `regex`: LIKE is no part of what is compared, so every pattern is refused.

#[derive(Clone, Debug)]
pub struct Error;

impl std::fmt::Display for Error {
    fn fmt(&self, f: &mut std::fmt::Formatter<'_>) -> std::fmt::Result {
        f.write_str("patterns are no part of the oracle")
    }
}

pub struct Regex;

impl Regex {
    pub fn new(_pattern: &str) -> Result<Self, Error> {
        Err(Error)
    }

    pub fn is_match(&self, _text: &str) -> bool {
        unreachable!("no pattern is ever made")
    }
}

pub fn escape(text: &str) -> String {
    text.to_owned()
}
