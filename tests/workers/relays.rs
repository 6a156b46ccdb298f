//! Bodies that are handed on unread.
use crate::compare::assert_same;
use crate::replies::text_of;
use crate::requests::{exchange, head, hello, worker};
use example_handlers::{Site, serve_relay};
use http_header::{ACCEPT, CONTENT_ENCODING, CONTENT_TYPE, HeaderMap, HeaderName, HeaderValue};
use std::alloc::Global;
use std::process::Abort;
use web_body::Marks;
use web_reply::{BoxBody, HttpResponse};
use web_request::{App, NoData, RequestHead, Source, Turn};
use web_worker::{Exchange, Outcome};

/// The values of Content-Type and of Content-Encoding of a request.
type Row = (&'static [&'static str], &'static [&'static str]);

const ROWS: &[Row] = &[
    (&["text/csv", "text/html"], &["gzip"]),
    (&[], &["br", "gzip"]),
    (&["text/csv"], &[]),
    (&[], &[]),
];

/// What the rows are answered with: the status, the number of headers, the values of both, and what
/// the source of the body gives at each call.
const REPLIES: &str = "200, 2: text/csv gzip he (stall) llo (end)\n\
                       200, 1: - br he (stall) llo (end)\n\
                       200, 1: text/csv - he (stall) llo (end)\n\
                       200, 0: - - he (stall) llo (end)\n";

fn append_values(
    rt: &impl Abort,
    alloc: Global,
    headers: &mut HeaderMap<HeaderValue>,
    name: &HeaderName,
    values: &[&'static str],
) {
    for value in values {
        let value = HeaderValue::from_bytes(alloc, value.as_bytes()).expect(rt, "a value");
        let _found = headers.append(name, value).expect(rt, "room");
    }
}

/// The head of a row's request, with one more header.
fn row_head(rt: &impl Abort, alloc: Global, row: &Row) -> RequestHead {
    let mut head = head(rt, alloc, "/relay");
    append_values(rt, alloc, &mut head.headers, &CONTENT_TYPE, row.0);
    append_values(rt, alloc, &mut head.headers, &CONTENT_ENCODING, row.1);
    append_values(rt, alloc, &mut head.headers, &ACCEPT, &["text/*"]);
    head
}

/// An exchange of each row.
fn exchanges<A: App<Source = Marks>>(rt: &impl Abort, alloc: Global) -> Vec<Exchange<A>> {
    let mut exchanges = Vec::new(alloc);
    for row in ROWS {
        let head = row_head(rt, alloc, row);
        let exchange = exchange(alloc, head, Vec::new(alloc), hello(rt, alloc));
        exchanges.push(exchange).expect(rt, "memory");
    }
    assert!(rt; exchanges.len() < 9);
    exchanges
}

fn value_text(value: Option<&HeaderValue>) -> &str {
    match value {
        Some(value) => text_of(value.as_bytes()),
        None => "-",
    }
}

/// The piece of a turn, or its name.
fn turn_text(turn: &Turn) -> &str {
    match turn {
        Turn::Piece(bytes) => text_of(bytes.as_slice()),
        Turn::Stall => "(stall)",
        Turn::End => "(end)",
        Turn::Fault | Turn::NoMemory => "(fault)",
    }
}

/// Adds the status of a reply, the number of its headers, and the values of both.
fn write_head<B>(rt: &impl Abort, lines: &mut String, reply: &HttpResponse<B>) {
    let status = reply.status().as_u16();
    let headers = reply.headers();
    let count = headers.len();
    let content_type = value_text(headers.get(CONTENT_TYPE));
    let content_encoding = value_text(headers.get(CONTENT_ENCODING));
    write!(
        lines,
        "{status}, {count}: {content_type} {content_encoding}"
    )
    .expect(rt, "memory");
}

/// Adds what the source of a body gives at each of four calls.
fn write_turns<S: Source>(rt: &impl Abort, lines: &mut String, body: BoxBody<S>) {
    if let BoxBody::Stream(mut payload) = body {
        for _ in 0..4 {
            let turn = payload.poll_next();
            let text = turn_text(&turn);
            write!(lines, " {text}").expect(rt, "memory");
        }
    }
    lines.push_str("\n").expect(rt, "memory");
}

/// Adds a line for an outcome.
fn write_relayed<A: App>(rt: &impl Abort, lines: &mut String, outcome: Outcome<A>) {
    if let Outcome::Reply(reply) = outcome {
        write_head(rt, lines, &reply);
        write_turns(rt, lines, reply.into_body());
    }
}

/// Serves the exchanges of the rows by the handler of a proxy.
fn relayed<A: App<Source = Marks>>(rt: &impl Abort, alloc: Global, root: A::Layer) -> String {
    let mut worker = worker::<A>(rt, alloc, root);
    let exchanges = exchanges::<A>(rt, alloc);
    let outcomes = serve_relay(alloc, &mut worker, exchanges, &[0, 1, 2, 3]);
    let mut lines = String::new(alloc);
    for outcome in outcomes.ok().expect(rt, "memory") {
        write_relayed(rt, &mut lines, outcome);
    }
    lines
}

#[test]
fn bodies_are_handed_on_unread(rt: HostRuntime) {
    let found = relayed::<Site>(&rt, rt.alloc(), NoData);
    assert_same(&rt, found.as_str(), REPLIES);
}
