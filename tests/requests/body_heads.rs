//! What the head of a request says of its body.
use crate::bodies::{assert_collected, value_of};
use crate::compare::assert_holds;
use crate::requests::body_request;
use bytes::Bytes;
use std::alloc::Global;
use std::process::Abort;
use web_body::{HttpMessageBody, Payload, PayloadError};

/// A head over the body `abc`: its Content-Length and Content-Encoding, the limit, and the refusal
/// that is expected.
type HeadRow = (
    Option<&'static [u8]>,
    Option<&'static [u8]>,
    usize,
    Option<PayloadError>,
);

const UNKNOWN: Option<PayloadError> = Some(PayloadError::UnknownLength);

const OVERFLOW: Option<PayloadError> = Some(PayloadError::Overflow);

const CODED: Option<PayloadError> = Some(PayloadError::UnsupportedEncoding);

const LENGTHS: [HeadRow; 17] = [
    (None, None, 3, None),
    (Some(b"3"), None, 3, None),
    (Some(b"0"), None, 3, None),
    (Some(b"007"), None, 7, None),
    (Some(b"007"), None, 6, OVERFLOW),
    (Some(b"4"), None, 3, OVERFLOW),
    (Some(b"18446744073709551615"), None, usize::MAX, None),
    (Some(b"18446744073709551615"), None, 262_144, OVERFLOW),
    (Some(b"18446744073709551616"), None, usize::MAX, UNKNOWN),
    (Some(b""), None, 9, UNKNOWN),
    (Some(b"+3"), None, 9, UNKNOWN),
    (Some(b"-1"), None, 9, UNKNOWN),
    (Some(b" 3"), None, 9, UNKNOWN),
    (Some(b"3 "), None, 9, UNKNOWN),
    (Some(b"\t3"), None, 9, UNKNOWN),
    (Some(b"0x3"), None, 9, UNKNOWN),
    (Some(b"\xff"), None, 9, UNKNOWN),
];

const CODINGS: [HeadRow; 12] = [
    (None, Some(b"identity"), 3, None),
    (None, Some(b"IDENTITY\t"), 3, None),
    (None, Some(b" identity "), 3, None),
    (None, Some(b""), 3, CODED),
    (None, Some(b"gzip"), 3, CODED),
    (None, Some(b"identity, gzip"), 3, CODED),
    (None, Some(b"identity;q=1"), 3, CODED),
    (None, Some(b"\xff"), 3, CODED),
    (Some(b"x"), Some(b"gzip"), 3, UNKNOWN),
    (Some(b"4"), Some(b"gzip"), 3, OVERFLOW),
    (Some(b"3"), Some(b"gzip"), 3, CODED),
    (Some(b"4"), Some(b"Identity"), 3, OVERFLOW),
];

/// Collects the body under the row's limit, after another limit was set.
fn assert_head(rt: &impl Abort, alloc: Global, row: &HeadRow) {
    let request = body_request(rt, alloc, &[None, row.0, row.1]);
    let mut payload = Payload::Whole(Bytes::from_static(b"abc"));
    let body = HttpMessageBody::new(alloc, &request, &mut payload);
    let found = value_of(rt, alloc, body.limit(1).limit(row.2));
    let expected = match row.3 {
        Some(refusal) => Err(refusal),
        None => Ok(b"abc".as_slice()),
    };
    assert_collected(rt, found, (0, expected));
    assert_holds(rt, "the payload is taken", matches!(payload, Payload::None));
}

#[test]
fn a_head_is_tested_before_its_body(rt: HostRuntime) {
    let alloc = rt.alloc();
    for row in &LENGTHS {
        assert_head(&rt, alloc, row);
    }
    for row in &CODINGS {
        assert_head(&rt, alloc, row);
    }
}
