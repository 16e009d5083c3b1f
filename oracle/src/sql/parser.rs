//! Stand-in for the original's parser: the names that other files mention.

/// Whether a name can be printed without quotes; only printing asks.
pub fn is_ident(name: &str) -> bool {
    let plain = |c: char| c.is_ascii_alphanumeric() || c == '_';
    name.starts_with(|c: char| c.is_ascii_alphabetic()) && name.chars().all(plain)
}

pub mod ast {
    pub enum Statement {}

    pub enum Expression {
        Column(Option<String>, String),
    }

    pub enum Direction {
        Ascending,
        Descending,
    }
}
