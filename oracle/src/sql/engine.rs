//! The original's engine and its local form.

include!(concat!(env!("OUT_DIR"), "/engine.rs"));

pub use engine::{Catalog, Engine, Transaction};
pub use local::{Key, Local};
