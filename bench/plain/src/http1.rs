//! A connection of HTTP/1.1: messages one after the other, and the bytes of their answers.
use crate::messages::{self, Message, Wrong};
use crate::reply::{Body, Reply};
use crate::script::Mark;
use crate::serving::{self, Pool};
use crate::text::{put_number, trimmed};

/// The answers to the messages, up to one that closes the connection.
pub fn answers(bytes: &[u8], pool: &mut Pool) -> Vec<u8> {
    let mut out = Vec::with_capacity(bytes.len());
    let mut rest = bytes;
    loop {
        match messages::next(rest) {
            Ok(Some(message)) => {
                rest = message.rest;
                if answer(&mut out, message, pool) {
                    return out;
                }
            }
            Ok(None) => return out,
            Err(wrong) => {
                put_refusal(&mut out, &wrong);
                return out;
            }
        }
    }
}

/// Adds the answer to a message. Returns whether the connection closes after it.
fn answer(out: &mut Vec<u8>, message: Message<'_>, pool: &mut Pool) -> bool {
    let closes = asks_close(&message);
    let is_head = message.request.method == "HEAD";
    let mut marks = Vec::new();
    if !message.body.is_empty() {
        marks.push(Mark::Text(&message.body));
    }
    let reply = serving::answer(message.request, marks, pool);
    put_reply(out, reply, is_head, closes);
    closes
}

/// Whether the sender asks for the end of the connection (RFC 7230, section 6.3).
pub fn asks_close(message: &Message<'_>) -> bool {
    let is_close = |part: &[u8]| trimmed(part).eq_ignore_ascii_case(b"close");
    let mut options = message.request.headers.all("connection");
    message.is_old || options.any(|value| value.split(|byte| *byte == b',').any(is_close))
}

/// Adds the bytes of a reply.
pub fn put_reply(out: &mut Vec<u8>, mut reply: Reply<'_>, is_head: bool, closes: bool) {
    put_status(out, reply.status);
    reply.headers.sort_by_key(|header| header.0);
    for (name, value) in &reply.headers {
        for part in [name.as_bytes(), b": ", value.as_bytes(), b"\r\n"] {
            out.extend_from_slice(part);
        }
    }
    let has_body = !is_head && !matches!(reply.status, ..200 | 204 | 304);
    if has_body {
        out.extend_from_slice(b"content-length: ");
        put_number(
            out,
            pieces(&reply.body).map(|piece| piece.len() as u64).sum(),
        );
        out.extend_from_slice(b"\r\n");
    }
    if closes {
        out.extend_from_slice(b"connection: close\r\n");
    }
    out.extend_from_slice(b"\r\n");
    if has_body {
        pieces(&reply.body).for_each(|piece| out.extend_from_slice(piece));
    }
}

/// The bytes of a body. Those of a message are one piece at most.
fn pieces<'a>(body: &'a Body<'_>) -> impl Iterator<Item = &'a [u8]> {
    let (whole, marks) = match body {
        Body::Whole(whole) => (Some(&**whole), [].as_slice()),
        Body::Stream(marks) => (None, marks.as_slice()),
    };
    let pieces = marks.iter().filter_map(|mark| match mark {
        Mark::Text(piece) => Some(*piece),
        Mark::Piece(_) | Mark::Stall | Mark::Fault => None,
    });
    whole.into_iter().chain(pieces)
}

fn put_refusal(out: &mut Vec<u8>, wrong: &Wrong) {
    put_status(
        out,
        match wrong {
            Wrong::Malformed => 400,
            Wrong::TooLarge => 413,
        },
    );
    out.extend_from_slice(b"content-length: 0\r\nconnection: close\r\n\r\n");
}

fn put_status(out: &mut Vec<u8>, status: u16) {
    out.extend_from_slice(b"HTTP/1.1 ");
    put_number(out, u64::from(status));
    out.push(b' ');
    out.extend_from_slice(phrase(status).as_bytes());
    out.extend_from_slice(b"\r\n");
}

/// The phrases of the statuses that the demo answers with.
fn phrase(status: u16) -> &'static str {
    match status {
        200 => "OK",
        204 => "No Content",
        206 => "Partial Content",
        304 => "Not Modified",
        400 => "Bad Request",
        404 => "Not Found",
        405 => "Method Not Allowed",
        406 => "Not Acceptable",
        412 => "Precondition Failed",
        413 => "Payload Too Large",
        415 => "Unsupported Media Type",
        416 => "Range Not Satisfiable",
        500 => "Internal Server Error",
        _ => "",
    }
}
