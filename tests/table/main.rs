//! Rows of texts: what calls of `web_texts`, `web_headers`, `web_entities`, `web_negotiate`,
//! `web_cookies`, `web_forwarded`, `web_docs`, `web_variants`, `web_multipart_stream`,
//! `web_messages` and `web_paths` give for texts.
//!
//! Standard input has a row a line, `CALL | FIELD | .. | WANTED`, which is written by hand; a line
//! that is empty or begins with `#` is none. Each row whose call gives something else is printed
//! with the number of its line and what the call gave, and at the end how many rows there were.
#![tactic(auto)]

mod answers;
mod choices;
mod compressing_proxy;
mod cookies;
mod dispositions;
mod documents;
mod entities;
mod file_service;
mod headers;
mod items;
mod languages;
mod made_headers;
mod maps;
mod media_types;
mod messages;
mod origins;
mod parts;
mod paths;
mod row_body;
mod rows;
mod texts;
mod variants;

use std::io;
use std::io::ErrorKind;

fn main(rt: HostRuntime) -> io::Result<()> {
    let mut number = 0u32;
    let mut count = 0u32;
    for line in rt.lines(rt.alloc()) {
        number = number.saturating_add(1);
        if is_row_reported(&rt, number, line)? {
            count = count.saturating_add(1);
        }
    }
    println!(rt; "{count} rows")
}

/// Prints a line that is no text, and a row that differs. Gives whether the line is a row.
fn is_row_reported(
    rt: &(impl Print + AllocGlobal),
    number: u32,
    line: io::Result<String>,
) -> io::Result<bool> {
    match line {
        Ok(line) => {
            let is_row = rows::is_row(line.as_str());
            if is_row {
                report(rt, number, line.as_str())?;
            }
            Ok(is_row)
        }
        Err(error) if error.kind() == ErrorKind::InvalidData => {
            println!(rt; "line {number} is not UTF-8")?;
            Ok(false)
        }
        Err(error) => Err(error),
    }
}

/// Prints a row that differs.
fn report(rt: &(impl Print + AllocGlobal), number: u32, line: &str) -> io::Result<()> {
    match rows::difference(rt.alloc(), line) {
        Ok(None) => Ok(()),
        Ok(Some(found)) => println!(rt; "line {number}: {line}\n    gives {found}"),
        Err(_) => Err(io::Error::from(ErrorKind::OutOfMemory)),
    }
}
