//! Replies as text, so that a table can have them.
use http::Version;
use std::alloc::Global;
use std::process::Abort;
use std::str;
use web_body::{Mark, Marks, Payload};
use web_reply::{BodySize, BoxBody, ConnectionType, HttpResponse, MessageBody, ResponseHead};

fn add(rt: &impl Abort, text: &mut String, more: &str) {
    text.push_str(more).expect(rt, "memory");
}

/// The bytes as a text, or `no text`.
fn add_bytes(rt: &impl Abort, text: &mut String, bytes: &[u8]) {
    add(rt, text, str::from_utf8(bytes).ok().unwrap_or("no text"));
}

fn connection_text(connection: Option<ConnectionType>) -> &'static str {
    match connection {
        Some(ConnectionType::KeepAlive) => " keep-alive",
        Some(ConnectionType::Close) => " close",
        Some(ConnectionType::Upgrade) => " upgrade",
        None => "",
    }
}

/// The status; the reason in parentheses, the connection, the mark and another version than 1.1,
/// where they are set.
fn add_status(rt: &impl Abort, alloc: Global, text: &mut String, head: &ResponseHead) {
    let status = head.status.as_u16();
    let status = format!(in alloc; "{status}").expect(rt, "memory");
    add(rt, text, status.as_str());
    if let Some(reason) = &head.reason {
        add(rt, text, " (");
        add(rt, text, reason.as_str());
        add(rt, text, ")");
    }
    add(rt, text, connection_text(head.connection));
    add(rt, text, if head.no_chunking { " no-chunking" } else { "" });
    if head.version != Version::HTTP_11 {
        add(rt, text, " another version");
    }
}

/// The headers, in the order of their names' first values.
fn add_headers(rt: &impl Abort, text: &mut String, head: &ResponseHead) {
    for (name, value) in &head.headers {
        add(rt, text, "; ");
        add(rt, text, name.as_str());
        add(rt, text, ": ");
        add_bytes(rt, text, value.as_bytes());
    }
}

fn add_marks(rt: &impl Abort, text: &mut String, marks: &Marks) {
    let (first, _) = marks.left();
    for mark in first {
        add(rt, text, " ");
        match mark {
            Mark::Piece(bytes) => add_bytes(rt, text, bytes.as_slice()),
            Mark::Stall => add(rt, text, "stall"),
            Mark::Fault => add(rt, text, "fault"),
        }
    }
}

fn add_payload(rt: &impl Abort, text: &mut String, payload: &Payload<Marks>) {
    match payload {
        Payload::None => add(rt, text, " nothing"),
        Payload::Whole(bytes) => {
            add(rt, text, " whole ");
            add_bytes(rt, text, bytes.as_slice());
        }
        Payload::Stream(marks) => add_marks(rt, text, marks),
    }
}

fn add_body(rt: &impl Abort, alloc: Global, text: &mut String, body: &BoxBody<Marks>) {
    match body {
        BoxBody::Empty => add(rt, text, "; empty"),
        BoxBody::Bytes(bytes) => {
            add(rt, text, "; bytes ");
            add_bytes(rt, text, bytes.as_slice());
        }
        BoxBody::Sized(length, payload) => {
            let length = format!(in alloc; "; sized {length}").expect(rt, "memory");
            add(rt, text, length.as_str());
            add_payload(rt, text, payload);
        }
        BoxBody::Stream(payload) => {
            add(rt, text, "; stream");
            add_payload(rt, text, payload);
        }
    }
}

/// The status with what else the head says, the headers, the body, and the cause if there is one.
pub(crate) fn printed_reply(
    rt: &impl Abort,
    alloc: Global,
    reply: &HttpResponse<BoxBody<Marks>>,
) -> String {
    let mut text = String::new(alloc);
    add_status(rt, alloc, &mut text, reply.head());
    add_headers(rt, &mut text, reply.head());
    add_body(rt, alloc, &mut text, reply.body());
    if let Some(cause) = reply.error() {
        let cause = format!(in alloc; "; {cause:?}").expect(rt, "memory");
        add(rt, &mut text, cause.as_str());
    }
    text
}

/// Compares a reply with the parts of its text.
pub(crate) fn assert_parts(
    rt: &impl Abort,
    alloc: Global,
    reply: &HttpResponse<BoxBody<Marks>>,
    parts: &[&str],
) {
    let mut expected = String::new(alloc);
    for part in parts {
        if !expected.is_empty() {
            add(rt, &mut expected, "; ");
        }
        add(rt, &mut expected, part);
    }
    let text = printed_reply(rt, alloc, reply);
    assert_eq!(rt; text.as_str(), expected.as_str());
}

/// Compares the length of a body, and its common form as text.
pub(crate) fn assert_body<B: MessageBody<Marks>>(
    rt: &impl Abort,
    alloc: Global,
    body: B,
    size: BodySize,
    expected: &str,
) {
    assert_eq!(rt; body.size(), size);
    let body = body.boxed(alloc).expect(rt, "memory");
    let mut text = String::new(alloc);
    add_body(rt, alloc, &mut text, &body);
    assert_eq!(rt; text.as_str(), expected);
}

/// Compares a reply with its text.
pub(crate) fn assert_reply<B: MessageBody<Marks>>(
    rt: &impl Abort,
    alloc: Global,
    reply: HttpResponse<B>,
    expected: &str,
) {
    let reply = reply.map_into_boxed_body(alloc).expect(rt, "memory");
    let text = printed_reply(rt, alloc, &reply);
    assert_eq!(rt; text.as_str(), expected);
}
