//! Values by the readers of the library, and by serde's derives, as arguments.
use crate::layered_requests::{Layer, Layered, Parts, layered_request, targeted, with_params};
use crate::outcomes::{argument, first_of, outcome};
use crate::requests::{FORM, JSON, body_request};
use serde::Deserialize;
use serde_json::Value;
use std::alloc::Global;
use std::process::Abort;
use web_codec::Typed;
use web_extract::FromRequest;
use web_extract_body::{Form, Json};
use web_extract_head::{Path, Query};
use web_reply::Error;
use web_texts::{Items, Text};

/// A name and a number that serde reads.
#[derive(Debug, Drop, Deserialize)]
struct Named {
    name: String,
    n: u8,
}

fn named_text(rt: &impl Abort, alloc: Global, named: Named) -> String {
    format!(in alloc; "{} {}", named.name, named.n).expect(rt, "memory")
}

/// Compares what an argument came as with a status and a text.
fn assert_outcome<E: Into<Error> + Drop>(
    rt: &impl Abort,
    alloc: Global,
    found: Result<String, E>,
    expected: (u16, &str),
) {
    let (status, text) = outcome(rt, alloc, found);
    assert_eq!(rt; (status, text.as_str()), expected);
}

/// What kind of argument is read of a body, the body, and the status and the text that come of it.
type Row = (&'static str, &'static [u8], (u16, &'static str));

const BODIES: &[Row] = &[
    ("typed", b"{\"name\":\"ab\",\"n\":7}", (200, "ab 7")),
    (
        "typed",
        b"{\"name\":\"ab\",\"n\":7,\"x\":1.5}",
        (400, "Json deserialize error: float"),
    ),
    (
        "typed",
        b"{\"name\":",
        (400, "Json deserialize error: no JSON"),
    ),
    ("number", b"255", (200, "255")),
    (
        "number",
        b"256",
        (400, "Json deserialize error: no whole number from 0 to 255"),
    ),
    ("items", b"[1,2,3]", (200, "3")),
    ("items", b"null", (200, "none")),
    ("value", b"{\"b\":1,\"a\":[ ]}", (200, "{\"a\":[],\"b\":1}")),
    ("form", b"n=7&name=a+b&other=1", (200, "a b 7")),
    ("form", b"name=ab", (400, "Parse error: n: missing.")),
];

fn number_text(rt: &impl Abort, alloc: Global, n: u8) -> String {
    n.to_string(alloc).expect(rt, "memory")
}

fn items_text(rt: &impl Abort, alloc: Global, items: Option<Items<u8>>) -> String {
    match items {
        Some(items) => items.as_slice().len().to_string(alloc).expect(rt, "memory"),
        None => String::from_str(alloc, "none").expect(rt, "memory"),
    }
}

/// Compares what the body of a row is as an argument, by the text of its value.
fn assert_read<T: FromRequest<Layered>, F: FnOnce(T) -> String + Drop>(
    rt: &impl Abort,
    alloc: Global,
    row: &Row,
    f: F,
) {
    let content_type = if row.0 == "form" { FORM } else { JSON };
    let request = body_request(rt, alloc, Layer::new(), [content_type, None]);
    let (found, _) = first_of::<Layered, T>(rt, alloc, &request, row.1);
    assert_outcome(rt, alloc, found.map(f), row.2);
}

fn assert_body(rt: &impl Abort, alloc: Global, row: &Row) {
    match row.0 {
        "typed" => assert_read(rt, alloc, row, |json: Json<Typed<Named>>| -> String {
            named_text(rt, alloc, json.into_inner().0)
        }),
        "number" => assert_read(rt, alloc, row, |json: Json<u8>| -> String {
            number_text(rt, alloc, json.into_inner())
        }),
        "items" => assert_read(rt, alloc, row, |json: Json<Option<Items<u8>>>| -> String {
            items_text(rt, alloc, json.into_inner())
        }),
        "value" => assert_read(rt, alloc, row, |json: Json<Value>| -> String {
            json.into_inner().to_string(alloc).expect(rt, "memory")
        }),
        _ => assert_read(rt, alloc, row, |form: Form<Typed<Named>>| -> String {
            named_text(rt, alloc, form.into_inner().0)
        }),
    }
}

#[test]
fn bodies_are_values(rt: HostRuntime) {
    let alloc = rt.alloc();
    for row in BODIES {
        assert_body(&rt, alloc, row);
    }
}

/// Compares what an argument is read as of a request of these parts, by the text of its value.
fn assert_target<T: FromRequest<Layered>, F: FnOnce(T) -> String + Drop>(
    rt: &impl Abort,
    alloc: Global,
    parts: &Parts,
    expected: (u16, &str),
    f: F,
) {
    let request = layered_request(rt, alloc, parts, Layer::new(), Layer::new());
    let found = argument::<Layered, T>(rt, alloc, &request);
    assert_outcome(rt, alloc, found.map(f), expected);
}

/// A text and a number of the parameters of a path.
fn assert_pair(rt: &impl Abort, alloc: Global, parts: &Parts, expected: (u16, &str)) {
    let text = |path: Path<(Text, u64)>| -> String {
        let (text, n) = path.into_inner();
        format!(in alloc; "{text} {n}").expect(rt, "memory")
    };
    assert_target(rt, alloc, parts, expected, text);
}

/// A number of the parameters of a path.
fn assert_single(rt: &impl Abort, alloc: Global, parts: &Parts, expected: (u16, &str)) {
    let text = |path: Path<u8>| -> String { number_text(rt, alloc, path.into_inner()) };
    assert_target(rt, alloc, parts, expected, text);
}

/// What serde reads of the parameters of a path.
fn assert_typed(rt: &impl Abort, alloc: Global, parts: &Parts, expected: (u16, &str)) {
    let text = |path: Path<Typed<Named>>| -> String { named_text(rt, alloc, path.into_inner().0) };
    assert_target(rt, alloc, parts, expected, text);
}

#[test]
fn paths_are_values(rt: HostRuntime) {
    let alloc = rt.alloc();
    let two = with_params(&[("room", "a%2Fb"), ("n", "7")]);
    assert_pair(&rt, alloc, &two, (200, "a/b 7"));
    assert_single(&rt, alloc, &two, (404, "not one value"));
    let one = with_params(&[("n", "7")]);
    assert_pair(&rt, alloc, &one, (404, "too few values"));
    assert_single(&rt, alloc, &one, (200, "7"));
    let large = with_params(&[("n", "256")]);
    assert_single(
        &rt,
        alloc,
        &large,
        (404, "n: no whole number from 0 to 255"),
    );
    let named = with_params(&[("n", "7"), ("name", "ab")]);
    assert_typed(&rt, alloc, &named, (200, "ab 7"));
    assert_typed(&rt, alloc, &one, (404, "name: missing"));
}

#[test]
fn queries_are_values(rt: HostRuntime) {
    let alloc = rt.alloc();
    let parts = targeted("/?name=a%20b&n=7");
    let text = |query: Query<Typed<Named>>| -> String {
        named_text(&rt, alloc, query.into_inner().0)
    };
    assert_target(&rt, alloc, &parts, (200, "a b 7"), text);
}
