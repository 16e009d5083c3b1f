//! The packed files: many streams in one file, their answers in another. Numbers are 4 bytes,
//! big-endian; a stream is its R, a length and its records, an answer three counted runs of bytes.

use std::fs;
use std::io::{BufWriter, Write};

use crate::stream;

pub fn run_file(streams: &str, answers: &str) -> Result<(), String> {
    let packed = fs::read(streams).map_err(|error| format!("{streams}: {error}"))?;
    let file = fs::File::create(answers).map_err(|error| format!("{answers}: {error}"))?;
    let mut out = BufWriter::new(file);
    let mut rest = packed.as_slice();
    while !rest.is_empty() {
        let cut_off = || format!("{streams}: cut off");
        let places = number(&mut rest).ok_or_else(cut_off)?;
        let length = number(&mut rest).ok_or_else(cut_off)?;
        let (records, after) = rest.split_at_checked(length as usize).ok_or_else(cut_off)?;
        rest = after;
        let outcome = stream::run(places as usize, records)?;
        for part in [&outcome.lines, &outcome.notes, &outcome.store] {
            let write = out.write_all(&(part.len() as u32).to_be_bytes());
            write
                .and_then(|()| out.write_all(part))
                .map_err(|error| format!("{answers}: {error}"))?;
        }
    }
    out.flush().map_err(|error| format!("{answers}: {error}"))
}

fn number(rest: &mut &[u8]) -> Option<u32> {
    let (bytes, after) = rest.split_first_chunk()?;
    *rest = after;
    Some(u32::from_be_bytes(*bytes))
}
