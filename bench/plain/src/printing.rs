//! The text of the replies.
use crate::reply::{Body, Reply};
use crate::script::Mark;
use crate::serving::{Flight, Pool, Stage};
use crate::text::{put_hex, put_line, put_number};

/// The replies in the order of the exchanges, then the records that are kept, and how many were made.
pub fn printed(flights: &mut [Flight<'_>], pool: &Pool) -> Vec<u8> {
    let mut out = Vec::new();
    for (number, flight) in flights.iter_mut().enumerate() {
        put_line(&mut out, b"exchange ", number as u64);
        match &mut flight.stage {
            Stage::Answered(reply) => put_reply(&mut out, reply),
            _ => out.extend_from_slice(b"unfinished\n"),
        }
    }
    out.extend_from_slice(b"pool");
    for &record in &pool.kept {
        out.push(b' ');
        put_number(&mut out, record);
    }
    out.push(b'\n');
    put_line(&mut out, b"made ", pool.made);
    out
}

fn put_reply(out: &mut Vec<u8>, reply: &mut Reply<'_>) {
    put_line(out, b"status ", u64::from(reply.status));
    reply.headers.sort_by_key(|header| header.0);
    for (name, value) in &reply.headers {
        for part in [name.as_bytes(), b": ", value.as_bytes(), b"\n"] {
            out.extend_from_slice(part);
        }
    }
    match &reply.body {
        Body::Whole(body) => put_body(out, body),
        Body::Stream(marks) => {
            out.extend_from_slice(b"body stream\n");
            marks.iter().for_each(|mark| put_mark(out, mark));
        }
    }
}

/// A mark that nobody has read.
fn put_mark(out: &mut Vec<u8>, mark: &Mark<'_>) {
    out.extend_from_slice(b"mark ");
    match mark {
        Mark::Text(bytes) => {
            out.extend_from_slice(b"piece ");
            put_hex(out, bytes);
        }
        Mark::Piece(digits) => {
            out.extend_from_slice(b"piece ");
            out.extend(digits.iter().map(u8::to_ascii_lowercase));
        }
        Mark::Stall => out.extend_from_slice(b"stall"),
        Mark::Fault => out.extend_from_slice(b"fault"),
    }
    out.push(b'\n');
}

fn put_body(out: &mut Vec<u8>, body: &[u8]) {
    if body.is_empty() {
        out.extend_from_slice(b"body\n");
    } else if is_printable(body) {
        out.extend_from_slice(b"body text ");
        out.extend_from_slice(body);
        out.push(b'\n');
    } else {
        out.extend_from_slice(b"body hex ");
        put_hex(out, body);
        out.push(b'\n');
    }
}

/// Whether all bytes are printable ASCII, by blocks without a branch inside.
fn is_printable(body: &[u8]) -> bool {
    body.chunks(256).all(|block| {
        block
            .iter()
            .fold(true, |so_far, byte| so_far & matches!(byte, 0x20..=0x7E))
    })
}
