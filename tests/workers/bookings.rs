//! Bookings that are read from JSON bodies and from forms, and written as both.
use crate::compare::assert_same;
use crate::replies::lines_of;
use crate::requests::{exchange, head, worker};
use bytes::Bytes;
use example_handlers::{BookingLayer, Bookings, serve_form_bookings, serve_json_bookings};
use http_header::{CONTENT_TYPE, HeaderValue};
use std::alloc::Global;
use std::process::Abort;
use web_body::{Marks, Payload};
use web_request::{App, RequestHead};
use web_worker::Exchange;

/// A Content-Type, a body, and the status and the text of the reply.
type Row = (Option<&'static str>, &'static [u8], u16, &'static str);

const JSON: Option<&'static str> = Some("application/json");

const PLAIN: Option<&'static str> = Some("text/plain; charset=utf-8");

const FORM: Option<&'static str> = Some("application/x-www-form-urlencoded");

const LONG: &[u8] = b"\"name=Ada&seats=2&name=Ada&seats=2&name=Ada&seats=2&name=Ada&seats\"";

const JSON_ROWS: &[Row] = &[
    (
        JSON,
        b"{\"name\":\"Ada\",\"seats\":2}",
        200,
        "{\"name\":\"Ada\",\"seats\":2}",
    ),
    (
        PLAIN,
        b" {\"seats\":0,\"name\":\"\",\"n\":[]}",
        200,
        "{\"name\":\"\",\"seats\":0}",
    ),
    (Some("text/html"), b"{}", 400, "Content type error"),
    (None, b"{}", 400, "Content type error"),
    (JSON, b"[]", 422, "missing name"),
    (JSON, b"{\"name\":7,\"seats\":2}", 422, "name is no text"),
    (JSON, b"{\"name\":\"Ada\"}", 422, "missing seats"),
    (
        JSON,
        b"{\"name\":\"Ada\",\"seats\":-1}",
        422,
        "seats is no whole number",
    ),
    (
        JSON,
        b"{\"seats\":2.5}",
        400,
        "Json deserialize error: float",
    ),
    (JSON, b"{", 400, "Json deserialize error: no JSON"),
    (
        JSON,
        LONG,
        413,
        "JSON payload has exceeded limit (64 bytes).",
    ),
];

const FORM_ROWS: &[Row] = &[
    (FORM, b"name=Ada&seats=2", 200, "name=Ada&seats=2"),
    (
        FORM,
        b"seats=07&n&name=A+%26&name=B",
        200,
        "name=A+%26&seats=7",
    ),
    (FORM, b"seats=2", 422, "missing name"),
    (FORM, b"name=Ada", 422, "missing seats"),
    (
        FORM,
        b"name=Ada&seats=two&seats=2",
        422,
        "seats is no number",
    ),
    (JSON, b"name=Ada&seats=2", 415, "Content type error."),
    (
        FORM,
        LONG,
        413,
        "URL encoded payload is larger (67 bytes) than allowed (limit: 64 bytes).",
    ),
];

fn typed_head(rt: &impl Abort, alloc: Global, content_type: Option<&'static str>) -> RequestHead {
    let mut head = head(rt, alloc, "/bookings");
    if let Some(content_type) = content_type {
        let value = HeaderValue::from_bytes(alloc, content_type.as_bytes()).expect(rt, "a value");
        let _old = head.headers.insert(CONTENT_TYPE, value).expect(rt, "room");
    }
    head
}

/// An exchange of each row.
fn exchanges<A: App<Source = Marks>>(
    rt: &impl Abort,
    alloc: Global,
    rows: &[Row],
) -> Vec<Exchange<A>> {
    let mut exchanges = Vec::new(alloc);
    for row in rows {
        let body = Payload::Whole(Bytes::from_static(row.1));
        let head = typed_head(rt, alloc, row.0);
        let exchange = exchange(alloc, head, Vec::new(alloc), body);
        exchanges.push(exchange).expect(rt, "memory");
    }
    assert!(rt; exchanges.len() < 99);
    exchanges
}

/// A line for the reply that is expected of each row.
fn expected_lines(rt: &impl Abort, alloc: Global, rows: &[Row]) -> String {
    let mut lines = String::new(alloc);
    for row in rows {
        let status = row.2;
        let body = row.3;
        writeln!(lines, "{status} {body}").expect(rt, "memory");
    }
    lines
}

/// Each exchange has one poll.
const PLAN: &[usize] = &[0, 1, 2, 3, 4, 5, 6, 7, 8, 9, 10];

/// Serves the exchanges of these rows under a layer that reads up to 64 bytes, by the handler of
/// forms or by that of JSON bodies.
fn assert_rows(rt: &impl Abort, alloc: Global, rows: &[Row], is_form: bool) {
    let mut worker = worker::<Bookings>(rt, alloc, BookingLayer::new(64));
    let exchanges = exchanges::<Bookings>(rt, alloc, rows);
    let outcomes = if is_form {
        serve_form_bookings(alloc, &mut worker, exchanges, PLAN)
    } else {
        serve_json_bookings(alloc, &mut worker, exchanges, PLAN)
    };
    let found = lines_of(rt, alloc, outcomes);
    assert_same(rt, found.as_str(), expected_lines(rt, alloc, rows).as_str());
}

#[test]
fn bookings_are_read_and_written(rt: HostRuntime) {
    assert_rows(&rt, rt.alloc(), JSON_ROWS, false);
    assert_rows(&rt, rt.alloc(), FORM_ROWS, true);
}
