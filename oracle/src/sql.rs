//! The original's module tree: its own files where they are compiled, stand-ins elsewhere.
// Most of the original is not called here, and its names are its own affair.
#![allow(dead_code, clippy::module_inception)]

pub mod engine;
pub mod execution;
pub mod parser;
pub mod planner;
pub mod types;
