//! A connection of HTTP/1.1: messages one after the other, and the bytes of their answers.
use crate::messages::{self, Message, Wrong};
use crate::response::Response;
use crate::script::{Exchange, Mark};
use crate::worker::{self, Pool};
use bytes::{Buf, Bytes};
use http::header::CONNECTION;
use http::{Method, StatusCode};

/// The answers to the messages, up to one that closes the connection. `None` where one asks for a
/// segment that is not written here.
pub fn answers(mut rest: Bytes, pool: &mut Pool) -> Option<Vec<u8>> {
    let mut out = Vec::new();
    loop {
        match messages::next(&rest) {
            Ok(Some(message)) => {
                rest.advance(message.used);
                if answer(&mut out, message, pool) {
                    return Some(out);
                }
            }
            Ok(None) => return Some(out),
            Err(Wrong::Lacking) => return None,
            Err(Wrong::Malformed) => return Some(refuse(out, StatusCode::BAD_REQUEST)),
            Err(Wrong::TooLarge) => return Some(refuse(out, StatusCode::PAYLOAD_TOO_LARGE)),
        }
    }
}

/// Adds the answer to a message. Returns whether the connection closes after it.
fn answer(out: &mut Vec<u8>, message: Message, pool: &mut Pool) -> bool {
    let closes = asks_close(&message);
    let is_head = message.request.method == Method::HEAD;
    let mut marks = Vec::new();
    if !message.body.is_empty() {
        marks.push(Mark::Piece(message.body));
    }
    let exchange = Exchange {
        request: message.request,
        marks,
    };
    worker::answer(exchange, pool).put_message(out, is_head, closes);
    closes
}

/// Whether the sender asks for the end of the connection (RFC 7230, section 6.3).
fn asks_close(message: &Message) -> bool {
    let is_close = |part: &[u8]| part.trim_ascii().eq_ignore_ascii_case(b"close");
    let mut options = message.request.headers.get_all(CONNECTION).iter();
    message.is_old || options.any(|value| value.as_bytes().split(|b| *b == b',').any(is_close))
}

/// Adds an empty reply that closes.
fn refuse(mut out: Vec<u8>, status: StatusCode) -> Vec<u8> {
    Response::empty(status).put_message(&mut out, false, true);
    out
}
