//! Heads of forms.
use crate::anything::{Anything, assert_text, first_text};
use crate::requests::body_request;
use bytes::Bytes;
use std::alloc::Global;
use std::process::Abort;
use web_body::{Marks, Payload};
use web_decoders::UrlEncoded;
use web_request::Mark;

/// A head over the body `ab`: its Content-Type, Content-Length and Content-Encoding, two limits,
/// the error that is expected, or `read`, and whether the payload is left.
type HeadRow = (
    Option<&'static [u8]>,
    Option<&'static [u8]>,
    Option<&'static [u8]>,
    Option<usize>,
    Option<usize>,
    &'static str,
    bool,
);

const FORM: Option<&'static [u8]> = Some(b"application/x-www-form-urlencoded");

const GZIP: Option<&'static [u8]> = Some(b"gzip");

const OTHER_TYPE: &str = "Content type error.";

const UNKNOWN: &str = "Payload size is now known.";

const ABOVE_TWO: &str = "URL encoded payload is larger (3 bytes) than allowed (limit: 2 bytes).";

const CODED: &str = "Error that occur during reading payload: content coding is not supported.";

const HEADS: &[HeadRow] = &[
    (FORM, None, None, None, None, "read", false),
    (
        Some(b"Application/X-WWW-Form-Urlencoded ;charset=\"UTF8\""),
        None,
        None,
        None,
        None,
        "read",
        false,
    ),
    (
        Some(b"application/x-www-form-urlencoded;charset=latin1"),
        None,
        None,
        None,
        None,
        OTHER_TYPE,
        true,
    ),
    (
        Some(b"application/x-www-form-urlencoded; x"),
        None,
        None,
        None,
        None,
        OTHER_TYPE,
        true,
    ),
    (
        Some(b" application/x-www-form-urlencoded"),
        None,
        None,
        None,
        None,
        OTHER_TYPE,
        true,
    ),
    (
        Some(b"application/json"),
        None,
        None,
        None,
        None,
        OTHER_TYPE,
        true,
    ),
    (
        Some(b"text/plain"),
        Some(b"+3"),
        GZIP,
        None,
        None,
        OTHER_TYPE,
        true,
    ),
    (None, None, None, None, None, OTHER_TYPE, true),
    (FORM, Some(b"+3"), GZIP, Some(2), None, UNKNOWN, true),
    (FORM, Some(b" 3"), None, None, None, UNKNOWN, true),
    (
        FORM,
        Some(b"18446744073709551616"),
        None,
        None,
        None,
        UNKNOWN,
        true,
    ),
    (FORM, Some(b"3"), None, None, None, "read", false),
    (FORM, Some(b"3"), GZIP, Some(2), None, ABOVE_TWO, false),
    (FORM, Some(b"3"), None, Some(2), Some(9), "read", false),
    (FORM, Some(b"3"), None, Some(9), Some(2), ABOVE_TWO, false),
    (FORM, Some(b"3"), GZIP, Some(3), None, CODED, false),
    (
        FORM,
        Some(b"32769"),
        None,
        None,
        None,
        "URL encoded payload is larger (32769 bytes) than allowed (limit: 32768 bytes).",
        false,
    ),
    (FORM, Some(b"32768"), None, None, None, "read", false),
    (
        FORM,
        None,
        None,
        Some(1),
        None,
        "URL encoded payload is larger (2 bytes) than allowed (limit: 1 bytes).",
        false,
    ),
];

/// Sets a limit, if any.
fn limited(body: UrlEncoded<Anything, Marks>, limit: Option<usize>) -> UrlEncoded<Anything, Marks> {
    match limit {
        Some(limit) => body.limit(limit),
        None => body,
    }
}

fn assert_head(rt: &impl Abort, alloc: Global, row: &HeadRow) {
    let request = body_request(rt, alloc, &[row.0, row.1, row.2]);
    let mut payload = Payload::Whole(Bytes::from_static(b"ab"));
    let body = UrlEncoded::new(alloc, &request, &mut payload).expect(rt, "memory");
    let body = limited(limited(body, row.3), row.4);
    let text = first_text(rt, alloc, body);
    assert_text(rt, text.as_str(), &payload, (row.5, row.6));
}

#[test]
fn a_head_is_tested_before_its_form(rt: HostRuntime) {
    let alloc = rt.alloc();
    for row in HEADS {
        assert_head(&rt, alloc, row);
    }
}

/// `a=`, `123`, a stall, `45`.
fn in_pieces(rt: &impl Abort, alloc: Global) -> Payload<Marks> {
    let marks = vec![in alloc;
        Mark::Piece(Bytes::from_static(b"a=")),
        Mark::Piece(Bytes::from_static(b"123")),
        Mark::Stall,
        Mark::Piece(Bytes::from_static(b"45")),
    ];
    Payload::Stream(Marks::new(marks.expect(rt, "memory")))
}

/// Collects that form under a limit, and compares what the first poll gives.
fn assert_pieces(rt: &impl Abort, alloc: Global, limit: usize, expected: &str) {
    let request = body_request(rt, alloc, &[FORM, None, None]);
    let mut payload = in_pieces(rt, alloc);
    let body = UrlEncoded::new(alloc, &request, &mut payload).expect(rt, "memory");
    let text = first_text(rt, alloc, limited(body, Some(limit)));
    assert_text(rt, text.as_str(), &payload, (expected, false));
}

#[test]
fn a_form_is_as_large_as_the_pieces_that_pass_its_limit(rt: HostRuntime) {
    let alloc = rt.alloc();
    for (limit, expected) in [
        (
            1,
            "URL encoded payload is larger (2 bytes) than allowed (limit: 1 bytes).",
        ),
        (
            4,
            "URL encoded payload is larger (5 bytes) than allowed (limit: 4 bytes).",
        ),
        (5, "pending"),
    ] {
        assert_pieces(&rt, alloc, limit, expected);
    }
}
