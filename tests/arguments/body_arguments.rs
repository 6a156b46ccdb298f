//! JSON values and forms as arguments, without a configuration.
use crate::item::Item;
use crate::layered_requests::{Layer, Layered};
use crate::outcomes::{assert_first, first_of, outcome};
use crate::requests::{FORM, JSON, body_request};
use std::alloc::Global;
use std::process::Abort;
use web_extract_body::{Form, Json};
use web_reply::Error;

/// A Content-Type, a Content-Length, a body, and the status and the text that come of it, and
/// whether the payload is left.
type Row = (
    Option<&'static [u8]>,
    Option<&'static [u8]>,
    &'static [u8],
    (u16, &'static str, bool),
);

const FORM_ROWS: &[Row] = &[
    (FORM, None, b"name=a+b&n=7", (200, "a b 7", false)),
    (None, None, b"", (415, "Content type error.", true)),
    (
        JSON,
        None,
        b"name=ab&n=7",
        (415, "Content type error.", true),
    ),
    (
        FORM,
        Some(b"+1"),
        b"",
        (411, "Payload size is now known.", true),
    ),
    (
        FORM,
        Some(b"16385"),
        b"name=ab&n=7",
        (
            413,
            "URL encoded payload is larger (16385 bytes) than allowed (limit: 16384 bytes).",
            false,
        ),
    ),
    (FORM, Some(b"16384"), b"name=ab&n=7", (200, "ab 7", false)),
    (
        FORM,
        None,
        b"n=7",
        (400, "Parse error: missing name.", false),
    ),
];

fn assert_form(rt: &impl Abort, alloc: Global, row: &Row) {
    let request = body_request(rt, alloc, Layer::new(), [row.0, row.1]);
    assert_first::<Layered, Form<Item>>(rt, alloc, &request, row.2, row.3);
}

#[test]
fn a_form_is_read_as_an_argument(rt: HostRuntime) {
    let alloc = rt.alloc();
    for row in FORM_ROWS {
        assert_form(&rt, alloc, row);
    }
}

#[test]
fn a_refusal_is_handed_on(rt: HostRuntime) {
    let alloc = rt.alloc();
    let request = body_request(&rt, alloc, Layer::new(), [JSON, None]);
    let (found, _) = first_of::<Layered, Result<Json<Item>, Error>>(&rt, alloc, &request, b"{");
    let (status, text) = outcome(&rt, alloc, found.ok().expect(&rt, "a result"));
    let expected = (400, "Json deserialize error: no JSON");
    assert_eq!(rt; (status, text.as_str()), expected);
}
