//! The oracle: answers requests of document 01 with toydb's original files, byte for byte
//! unchanged, over stand-ins for what they import. README.md says how it is built and run.

mod answer;
mod code;
mod crc;
mod domain;
mod encoding;
mod error;
mod image;
mod lines;
mod outside;
mod packed;
mod places;
mod records;
mod runner;
mod sql;
mod storage;
mod stream;

// The original files import these macros from the crate's root.
use refusal::{errdata, errinput};

use std::io::{self, Read, Write};
use std::process::ExitCode;

const USAGE: &str = "usage: oracle STREAMS ANSWERS
       oracle --records R [--store FILE]    records from standard input, lines to standard output
       oracle --outside                     what the original does outside the domain";

fn main() -> ExitCode {
    let arguments: Vec<String> = std::env::args().skip(1).collect();
    let arguments: Vec<&str> = arguments.iter().map(String::as_str).collect();
    let outcome = match arguments[..] {
        ["--outside"] => {
            outside::print_all();
            Ok(())
        }
        ["--records", places] => run_records(places, None),
        ["--records", places, "--store", file] => run_records(places, Some(file)),
        [streams, answers] if !streams.starts_with('-') => packed::run_file(streams, answers),
        _ => Err(USAGE.to_owned()),
    };
    match outcome {
        Ok(()) => ExitCode::SUCCESS,
        Err(message) => {
            eprintln!("{message}");
            ExitCode::FAILURE
        }
    }
}

fn run_records(places: &str, store: Option<&str>) -> Result<(), String> {
    let places = places.parse().map_err(|_| USAGE.to_owned())?;
    let mut records = Vec::new();
    io::stdin().read_to_end(&mut records).map_err(|error| format!("standard input: {error}"))?;
    let outcome = stream::run(places, &records)?;
    io::stdout().write_all(&outcome.lines).map_err(|error| format!("standard output: {error}"))?;
    io::stderr().write_all(&outcome.notes).map_err(|error| format!("standard error: {error}"))?;
    match store {
        Some(file) => {
            std::fs::write(file, &outcome.store).map_err(|error| format!("{file}: {error}"))
        }
        None => Ok(()),
    }
}
