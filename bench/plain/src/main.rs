//! Serves scripts and connections as the program rothveng does, in plain Rust, to measure against.
mod accept;
mod arguments;
mod body;
mod connection;
mod cookies;
mod date;
mod disposition;
mod documents;
mod headers;
mod http1;
mod item;
mod json;
mod language;
mod layer;
mod lines;
mod load;
mod media_type;
mod messages;
mod pairs;
mod parts;
mod printing;
mod quality;
mod reply;
mod request;
mod script;
mod serving;
mod site;
mod target;
mod text;
mod thousandths;
mod variants;

use load::Load;
use script::Fault;
use serving::Pool;
use std::io::{Read, Write};
use std::process::ExitCode;

/// The most bytes that a script or a connection may have.
const INPUT_LIMIT: u64 = 16_777_216;

/// The most records that a pool may keep.
const MOST_KEPT: usize = 1_024;

/// How many records `replay` keeps.
const REPLAY_CAPACITY: usize = 128;

const USAGE: &[u8] =
    b"usage: serve --pool=N | generate SEED COUNT | replay SEED COUNT | http1 --pool=N\n";

fn main() -> ExitCode {
    let words: Vec<String> = std::env::args().skip(1).collect();
    let words: Vec<&str> = words.iter().map(String::as_str).collect();
    match words[..] {
        ["serve", pool] => match capacity(pool) {
            Some(capacity) => serve(capacity),
            None => say(USAGE, 64),
        },
        ["generate", seed, count] => match Load::read(seed, count) {
            Some(load) => say(&load.script(), 0),
            None => say(USAGE, 64),
        },
        ["replay", seed, count] => match Load::read(seed, count) {
            Some(load) => replay(&load),
            None => say(USAGE, 64),
        },
        ["http1", pool] => match capacity(pool) {
            Some(capacity) => connect(capacity),
            None => say(USAGE, 64),
        },
        // For bench/documents/run.
        ["documents", count, size, request, ref headers @ ..] => {
            match documents::last_reply([count, size], request, headers) {
                Some(text) => say(text.as_bytes(), 0),
                None => ExitCode::FAILURE,
            }
        }
        // For tools/try-site, which no other program stands beside.
        ["site"] => site::serve().map_or(ExitCode::from(3), |()| ExitCode::SUCCESS),
        _ => say(USAGE, 64),
    }
}

/// The capacity that a word `--pool=N` asks for.
fn capacity(word: &str) -> Option<usize> {
    let digits = word.strip_prefix("--pool=")?;
    let is_number = digits.bytes().all(|digit| digit.is_ascii_digit());
    digits
        .parse()
        .ok()
        .filter(|&number| is_number && number <= MOST_KEPT)
}

/// Reads a script, serves it and writes the replies.
fn serve(capacity: usize) -> ExitCode {
    let bytes = match input() {
        Ok(bytes) => bytes,
        Err(status) => return status,
    };
    match script::read(&bytes) {
        Ok(script) => {
            let mut pool = Pool::new(capacity);
            let mut flights = serving::serve(script, &mut pool);
            say(&printing::printed(&mut flights, &pool), 0)
        }
        Err(fault) => refuse(&fault),
    }
}

/// Reads a connection of HTTP/1.1, and writes its answers.
fn connect(capacity: usize) -> ExitCode {
    match input() {
        Ok(bytes) => say(&http1::answers(&bytes, &mut Pool::new(capacity)), 0),
        Err(status) => status,
    }
}

/// The whole input, or the status where it cannot be read or is too long.
fn input() -> Result<Vec<u8>, ExitCode> {
    let mut bytes = Vec::new();
    let input = std::io::stdin().lock();
    if input.take(INPUT_LIMIT + 1).read_to_end(&mut bytes).is_err() {
        return Err(ExitCode::from(3));
    }
    if bytes.len() as u64 > INPUT_LIMIT {
        return Err(say(b"line 0: too long\n", 2));
    }
    Ok(bytes)
}

/// Serves the script of a load, and writes the summary.
fn replay(load: &Load) -> ExitCode {
    let bytes = load.script();
    match script::read(&bytes) {
        Ok(script) => {
            let mut pool = Pool::new(REPLAY_CAPACITY);
            let flights = serving::serve(script, &mut pool);
            say(&load::summary(bytes.len(), &flights, pool.made), 0)
        }
        Err(fault) => refuse(&fault),
    }
}

/// Writes which line of a script is faulty, and why.
fn refuse(fault: &Fault) -> ExitCode {
    let text = format!("line {}: {}\n", fault.line, fault.reason);
    say(text.as_bytes(), 2)
}

/// Writes the text, and gives the status, or that writing failed.
fn say(text: &[u8], status: u8) -> ExitCode {
    match std::io::stdout().lock().write_all(text) {
        Ok(()) => ExitCode::from(status),
        Err(_) => ExitCode::from(4),
    }
}
