//! The original's executor with its aggregator and joins. Sessions are left out.

include!(concat!(env!("OUT_DIR"), "/execution.rs"));

pub use executor::{ExecutionResult, Executor};

/// Stand-in: named by the engine's trait, never used.
pub struct Session<'a, E: super::engine::Engine<'a>> {
    _engine: &'a E,
}

impl<'a, E: super::engine::Engine<'a>> Session<'a, E> {
    pub fn new(engine: &'a E) -> Self {
        Self { _engine: engine }
    }
}
