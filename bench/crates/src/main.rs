//! Serves a script as the program rothveng does, on the crates that Rust users would take.
mod accept;
mod arguments;
mod body;
mod cookies;
mod documents;
mod extract;
mod http1;
mod item;
mod layer;
mod lines;
mod load;
mod messages;
mod refusal;
mod request;
mod response;
mod script;
mod tags;
mod text;
mod worker;

use bytes::Bytes;
use load::Load;
use script::Unread;
use std::io::{Read, Write};
use std::process::ExitCode;
use worker::Pool;

/// The most bytes that a script or a connection may have.
const INPUT_LIMIT: u64 = 16_777_216;

/// The most records that a pool may keep.
const MOST_KEPT: u64 = 1_024;

/// How many records `replay` keeps.
const REPLAY_CAPACITY: usize = 128;

/// The status where a script asks for a segment that is not written here.
const LACKING: u8 = 70;

const USAGE: &[u8] =
    b"usage: serve --pool=N | generate SEED COUNT | replay SEED COUNT | http1 --pool=N\n";

fn main() -> ExitCode {
    let words: Vec<String> = std::env::args().skip(1).collect();
    let words: Vec<&str> = words.iter().map(String::as_str).collect();
    let known = match words[..] {
        ["serve", pool] => capacity(pool).map(serve),
        ["generate", seed, count] => Load::read(seed, count).map(|load| say(&load.script(), 0)),
        ["replay", seed, count] => Load::read(seed, count).map(|load| replay(&load)),
        ["http1", pool] => capacity(pool).map(connect),
        // For bench/documents/run.
        ["documents", count, size, request, ref headers @ ..] => {
            documents::last_reply([count, size], request, headers)
                .map(|text| say(text.as_bytes(), 0))
        }
        _ => None,
    };
    known.unwrap_or_else(|| say(USAGE, 64))
}

/// The capacity that a word `--pool=N` asks for.
fn capacity(word: &str) -> Option<usize> {
    let number = text::number(word.strip_prefix("--pool=")?.as_bytes(), MOST_KEPT)?;
    usize::try_from(number).ok()
}

/// Reads the input, and gives what follows, or says why it is not read.
fn with_input(then: impl FnOnce(Bytes) -> ExitCode) -> ExitCode {
    let mut input = Vec::new();
    let limited = &mut std::io::stdin().lock().take(INPUT_LIMIT + 1);
    if limited.read_to_end(&mut input).is_err() {
        return ExitCode::from(3);
    }
    if input.len() as u64 > INPUT_LIMIT {
        return say(b"line 0: too long\n", 2);
    }
    then(input.into())
}

/// Reads a script, serves it and writes the replies.
fn serve(capacity: usize) -> ExitCode {
    with_input(|input| match script::read(&input) {
        Ok(script) => {
            let mut pool = Pool::new(capacity);
            let replies = worker::serve(script, &mut pool);
            say(&worker::printed(&replies, &pool), 0)
        }
        Err(unread) => refuse(&unread),
    })
}

/// Reads the messages of a connection, and writes their answers.
fn connect(capacity: usize) -> ExitCode {
    with_input(|input| match http1::answers(input, &mut Pool::new(capacity)) {
        Some(text) => say(&text, 0),
        None => ExitCode::from(LACKING),
    })
}

/// Serves the script of a load, and writes the summary.
fn replay(load: &Load) -> ExitCode {
    let input = Bytes::from(load.script());
    match script::read(&input) {
        Ok(script) => {
            let mut pool = Pool::new(REPLAY_CAPACITY);
            let replies = worker::serve(script, &mut pool);
            say(&load::summary(input.len(), &replies, pool.made), 0)
        }
        Err(unread) => refuse(&unread),
    }
}

/// Writes which line is faulty and why, or ends without a word where a segment is lacking.
fn refuse(unread: &Unread) -> ExitCode {
    match unread {
        Unread::Faulty { line, reason } => say(format!("line {line}: {reason}\n").as_bytes(), 2),
        Unread::Lacking => ExitCode::from(LACKING),
    }
}

/// Writes the text, and gives the status, or that writing failed.
fn say(text: &[u8], status: u8) -> ExitCode {
    match std::io::stdout().lock().write_all(text) {
        Ok(()) => ExitCode::from(status),
        Err(_) => ExitCode::from(4),
    }
}
