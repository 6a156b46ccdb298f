//! What came of exchanges, as texts.
use example_handlers::Outcomes;
use std::alloc::Global;
use std::process::Abort;
use std::str;
use web_reply::{BoxBody, HttpResponse};
use web_request::{App, Source};
use web_worker::Outcome;

/// Bytes as a text.
pub(crate) fn text_of(bytes: &[u8]) -> &str {
    match str::from_utf8(bytes) {
        Ok(text) => text,
        Err(_) => "(no text)",
    }
}

/// The bytes of a body, or that it is another one.
fn body_text<S: Source>(body: &BoxBody<S>) -> &str {
    match body {
        BoxBody::Bytes(bytes) => text_of(bytes.as_slice()),
        BoxBody::Empty | BoxBody::Sized(_, _) | BoxBody::Stream(_) => "(another body)",
    }
}

/// Adds a line with the status and the bytes of a reply.
fn write_reply<S: Source>(rt: &impl Abort, lines: &mut String, reply: &HttpResponse<BoxBody<S>>) {
    let status = reply.status().as_u16();
    let body = body_text(reply.body());
    writeln!(lines, "{status} {body}").expect(rt, "memory");
}

/// Adds a line for an outcome.
pub(crate) fn write_outcome<A: App>(rt: &impl Abort, lines: &mut String, outcome: &Outcome<A>) {
    match outcome {
        Outcome::Reply(reply) => write_reply(rt, lines, reply),
        Outcome::Unfinished => lines.push_str("unfinished\n").expect(rt, "memory"),
        Outcome::NoMemory => lines.push_str("no memory\n").expect(rt, "memory"),
    }
}

/// A line for each outcome.
pub(crate) fn lines<A: App>(rt: &impl Abort, alloc: Global, outcomes: Vec<Outcome<A>>) -> String {
    let mut lines = String::new(alloc);
    for outcome in &outcomes {
        write_outcome(rt, &mut lines, outcome);
    }
    lines
}

/// A line for each outcome, where no allocation failed before the first poll.
pub(crate) fn lines_of<A: App>(rt: &impl Abort, alloc: Global, outcomes: Outcomes<A>) -> String {
    lines(rt, alloc, outcomes.ok().expect(rt, "memory"))
}
