//! Heads of JSON bodies.
ghost use Rattle.std.specs.Prelude.{◌≡◌, [], false};

use crate::anything::{Anything, assert_text, first_text};
use crate::requests::body_request;
use bytes::Bytes;
use std::alloc::Global;
use std::process::Abort;
use web_body::{Marks, Payload};
use web_decoders::{AllowType, JsonBody};
use web_texts::Mime;

/// A head over the body `[]`: its Content-Type, Content-Length and Content-Encoding, two limits,
/// and the error that is expected, or `read`.
type HeadRow = (
    Option<&'static [u8]>,
    Option<&'static [u8]>,
    Option<&'static [u8]>,
    Option<usize>,
    Option<usize>,
    &'static str,
);

const JSON: Option<&'static [u8]> = Some(b"application/json");

const GZIP: Option<&'static [u8]> = Some(b"gzip");

const THREE: Option<&'static [u8]> = Some(b"3");

const ABOVE_TWO: &str = "JSON payload (3 bytes) is larger than allowed (limit: 2 bytes).";

const CODED: &str = "Error that occur during reading payload: content coding is not supported";

const HEADS: &[HeadRow] = &[
    (JSON, None, None, None, None, "read"),
    (JSON, THREE, None, None, None, "read"),
    (JSON, THREE, None, Some(3), None, "read"),
    (JSON, THREE, None, Some(2), None, ABOVE_TWO),
    (JSON, Some(b" 3\t"), None, Some(2), None, ABOVE_TWO),
    (JSON, Some(b"+3"), None, Some(2), None, "read"),
    (JSON, THREE, None, Some(2), Some(9), ABOVE_TWO),
    (JSON, THREE, None, Some(9), Some(2), ABOVE_TWO),
    (JSON, THREE, GZIP, None, None, CODED),
    (JSON, THREE, GZIP, Some(2), None, ABOVE_TWO),
    (JSON, None, GZIP, Some(1), Some(9), CODED),
    (
        JSON,
        None,
        None,
        Some(1),
        None,
        "JSON payload has exceeded limit (1 bytes).",
    ),
    (JSON, None, None, Some(1), Some(2), "read"),
];

/// A predicate that allows nothing.
#[derive(Drop)]
struct Never;

impl AllowType for Never {
    ghost use Rattle.std.specs.Prelude.{◌≡◌, false};

    ghost allows_type = { λ p m answer. answer ≡ false };

    fn allows(&self, _media_type: &Mime) -> bool {
        false
    }
}

/// Sets a limit, if any.
fn limited(body: JsonBody<Anything, Marks>, limit: Option<usize>) -> JsonBody<Anything, Marks> {
    match limit {
        Some(limit) => body.limit(limit),
        None => body,
    }
}

fn assert_head(rt: &impl Abort, alloc: Global, row: &HeadRow) {
    let request = body_request(rt, alloc, &[row.0, row.1, row.2]);
    let mut payload = Payload::Whole(Bytes::from_static(b"[]"));
    let predicate: Option<&Never> = None;
    let body = JsonBody::new(alloc, &request, &mut payload, predicate, true).expect(rt, "memory");
    let body = limited(limited(body, row.3), row.4);
    let text = first_text(rt, alloc, body);
    assert_text(rt, text.as_str(), &payload, (row.5, false));
}

#[test]
fn a_head_is_tested_before_its_json(rt: HostRuntime) {
    let alloc = rt.alloc();
    for row in HEADS {
        assert_head(&rt, alloc, row);
    }
}
