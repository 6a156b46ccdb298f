//! Messages at the front of the bytes of a connection.
use crate::answers::{Answer, no_number, no_such_call, text};
use crate::parts::add_bytes;
use crate::row_body::bytes_of;
use http::Version;
use http_header::{HeaderMap, HeaderValue};
use http_uri::Uri;
use std::alloc::Global;
use std::fmt::Write;
use web_messages::{HeadChecks, Limits, Message, Next, Wrong, next_message};
use web_texts::NoMemory;

/// The fields of a row: the most bytes of a head, its most fields, the most bytes of a body, and
/// the bytes of the connection.
pub(crate) fn answer(alloc: Global, name: &str, fields: &[&str]) -> Answer {
    let ("next", [head, headers, body, bytes]) = (name, fields) else {
        return no_such_call(alloc);
    };
    match limits_of(head, headers, body) {
        Some(limits) => {
            let bytes = bytes_of(alloc, bytes)?;
            next(alloc, &limits, bytes.as_slice())
        }
        None => no_number(alloc),
    }
}

fn limits_of(head: &str, headers: &str, body: &str) -> Option<Limits> {
    Some(Limits {
        head: head.parse().ok()?,
        headers: headers.parse().ok()?,
        body: body.parse().ok()?,
        kept: usize::MAX,
        checks: HeadChecks::NONE,
    })
}

fn next(alloc: Global, limits: &Limits, bytes: &[u8]) -> Answer {
    match next_message(alloc, limits, bytes)? {
        Next::Closed => text(alloc, "closed"),
        Next::Refused(wrong) => text(alloc, refused_text(wrong)),
        Next::Message(message) => shown(alloc, &message),
    }
}

fn refused_text(wrong: Wrong) -> &'static str {
    match wrong {
        Wrong::Head(_) => "refused Head",
        Wrong::Length(_) => "refused Length",
        Wrong::TooLarge => "refused TooLarge",
        Wrong::Chunk => "refused Chunk",
        Wrong::Cut => "refused Cut",
    }
}

/// The method, the path and the query of the target, the version, the fields, the body, and how
/// many bytes the message has.
fn shown(alloc: Global, message: &Message) -> Answer {
    let mut shown = text(alloc, message.method.as_str())?;
    add_target(&mut shown, &message.uri)?;
    shown.push_str(version_text(message.version))?;
    add_headers(&mut shown, &message.headers)?;
    shown.push_str("; ")?;
    add_bytes(&mut shown, message.body.as_slice())?;
    with_number(shown, message.used)
}

fn add_target(shown: &mut String, uri: &Uri) -> Result<(), NoMemory> {
    shown.push(' ')?;
    add_bytes(shown, uri.path().as_bytes())?;
    match uri.query() {
        Some(query) => {
            shown.push_str(" ?")?;
            add_bytes(shown, query.as_bytes())
        }
        None => Ok(()),
    }
}

fn version_text(version: Version) -> &'static str {
    if version == Version::HTTP_10 {
        " 1.0"
    } else {
        " 1.1"
    }
}

fn add_headers(shown: &mut String, headers: &HeaderMap<HeaderValue>) -> Result<(), NoMemory> {
    for (name, value) in headers {
        shown.push_str("; ")?;
        shown.push_str(name.as_str())?;
        shown.push_str(": ")?;
        add_bytes(shown, value.as_bytes())?;
    }
    Ok(())
}

fn with_number(shown: String, number: usize) -> Answer {
    let mut shown = shown;
    match write!(shown, " {number}") {
        Ok(()) => Ok(shown),
        Err(_) => Err(NoMemory),
    }
}
