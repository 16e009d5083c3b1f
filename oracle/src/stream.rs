//! A stream of records over a fresh store: its lines, its notes and the store at its end.

use std::io::Write;

use crate::answer::{Answer, Carried, Store};
use crate::crc::crc32;
use crate::{image, lines, records};

pub struct Outcome {
    pub lines: Vec<u8>,
    /// For each request the store's CRC after it and what a refusal carries; where the stream
    /// leaves the domain, why.
    pub notes: Vec<u8>,
    pub store: Vec<u8>,
}

pub fn run(row_places: usize, mut rest: &[u8]) -> Result<Outcome, String> {
    if !(1..=4096).contains(&row_places) {
        return Err(format!("{row_places} row places: 1 to 4096 can be had"));
    }
    let mut store = Store::new(row_places);
    let mut image = image::of(&store.memory, row_places);
    let (mut out, mut notes) = (Vec::new(), Vec::new());
    while let Some(request) = records::next(&mut rest) {
        match request.and_then(|request| store.answer(&request)) {
            Ok(answer) => {
                image = image::of(&store.memory, row_places);
                writeln!(notes, "{:08x} {}", crc32(&image), carried(&answer)).expect("memory");
                write_lines(&mut out, &answer);
            }
            Err(reason) => {
                writeln!(notes, "outside {}", reason.replace('\n', " ")).expect("memory");
                break;
            }
        }
    }
    Ok(Outcome { lines: out, notes, store: image })
}

fn write_lines(out: &mut Vec<u8>, answer: &Answer) {
    match answer {
        Answer::Done((rows, count)) => {
            for row in rows {
                writeln!(out, "{}", lines::row(row)).expect("memory");
            }
            writeln!(out, "ok {count}").expect("memory");
        }
        Answer::Refused { code, at, gone, .. } => {
            writeln!(out, "no {code} {at} {}", u8::from(*gone)).expect("memory");
        }
    }
}

fn carried(answer: &Answer) -> String {
    match answer {
        Answer::Refused { carried: Carried::Column { table, column }, .. } => {
            format!("20 {} {column}", lines::text(table))
        }
        Answer::Refused { carried: Carried::Row { table, column, key }, .. } => {
            format!("32 {} {column} {}", lines::text(table), lines::value(key))
        }
        _ => "-".into(),
    }
}

#[cfg(test)]
mod tests;
