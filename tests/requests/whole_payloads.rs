//! All bytes of payloads, without a limit and under one.
use crate::bodies::{assert_collected, value_of};
use crate::compare::assert_same;
use bytes::Bytes;
use std::alloc::Global;
use std::process::Abort;
use web_body::{BodyLimitExceeded, Marks, Payload, PayloadError};
use web_request::Mark;

/// `a`, an empty piece, a stall, `bc`, a stall.
fn stalling(rt: &impl Abort, alloc: Global) -> Payload<Marks> {
    let marks = vec![in alloc;
        Mark::Piece(Bytes::from_static(b"a")),
        Mark::Piece(Bytes::new()),
        Mark::Stall,
        Mark::Piece(Bytes::from_static(b"bc")),
        Mark::Stall,
    ];
    Payload::Stream(Marks::new(marks.expect(rt, "memory")))
}

/// `a`, a stall, `bc`, then a fault.
fn failing(rt: &impl Abort, alloc: Global) -> Payload<Marks> {
    let marks = vec![in alloc;
        Mark::Piece(Bytes::from_static(b"a")),
        Mark::Stall,
        Mark::Piece(Bytes::from_static(b"bc")),
        Mark::Fault,
    ];
    Payload::Stream(Marks::new(marks.expect(rt, "memory")))
}

fn whole(bytes: &'static [u8]) -> Payload<Marks> {
    Payload::Whole(Bytes::from_static(bytes))
}

/// What is expected of all bytes.
type ExpectedBytes = Result<&'static [u8], PayloadError>;

/// Collects a payload without a limit, and compares the number of stalls and the result.
fn assert_all(
    rt: &impl Abort,
    alloc: Global,
    payload: Payload<Marks>,
    stalls: usize,
    expected: ExpectedBytes,
) {
    let found = value_of(rt, alloc, payload.to_bytes(alloc));
    assert_collected(rt, found, (stalls, expected));
}

/// Bodies in memory.
const BODIES: &[&[u8]] = &[b"", b"abc", b"hello\r%41\xc3\xaf", b"\xff \\|", b"\x00"];

#[test]
fn all_bytes_are_collected(rt: HostRuntime) {
    let alloc = rt.alloc();
    for body in BODIES {
        assert_all(&rt, alloc, whole(body), 0, Ok(*body));
    }
    assert_all(&rt, alloc, Payload::None, 0, Ok(b""));
    assert_all(&rt, alloc, stalling(&rt, alloc), 2, Ok(b"abc"));
    assert_all(&rt, alloc, failing(&rt, alloc), 1, Err(PayloadError::Io));
}

/// What is expected under a limit.
type ExpectedLimited = Result<ExpectedBytes, BodyLimitExceeded>;

/// Collects a payload up to a limit, and compares the number of stalls and the result.
fn assert_limited(
    rt: &impl Abort,
    alloc: Global,
    payload: Payload<Marks>,
    limit: usize,
    expected: (usize, ExpectedLimited),
) {
    let found = value_of(rt, alloc, payload.to_bytes_limited(alloc, limit));
    match (found.1, expected.1) {
        (Ok(read), Ok(bytes)) => assert_collected(rt, (found.0, read), (expected.0, bytes)),
        (Err(_), Err(_)) => assert_same(rt, found.0, expected.0),
        _ => panic!(rt; "the limit"),
    }
}

/// Limits, the result of the body that stalls, and that of the body that fails.
const LIMITS: &[(usize, (usize, ExpectedLimited), (usize, ExpectedLimited))] = &[
    (0, (0, Err(BodyLimitExceeded)), (0, Err(BodyLimitExceeded))),
    (1, (1, Err(BodyLimitExceeded)), (1, Err(BodyLimitExceeded))),
    (2, (1, Err(BodyLimitExceeded)), (1, Err(BodyLimitExceeded))),
    (3, (2, Ok(Ok(b"abc"))), (1, Ok(Err(PayloadError::Io)))),
    (4, (2, Ok(Ok(b"abc"))), (1, Ok(Err(PayloadError::Io)))),
];

#[test]
fn bytes_are_collected_up_to_a_limit(rt: HostRuntime) {
    let alloc = rt.alloc();
    for (limit, stalls, fails) in LIMITS {
        assert_limited(&rt, alloc, stalling(&rt, alloc), *limit, *stalls);
        assert_limited(&rt, alloc, failing(&rt, alloc), *limit, *fails);
    }
    assert_limited(&rt, alloc, whole(b"ab"), 2, (0, Ok(Ok(b"ab"))));
    assert_limited(&rt, alloc, whole(b"abc"), 2, (0, Err(BodyLimitExceeded)));
    assert_limited(&rt, alloc, Payload::None, 0, (0, Ok(Ok(b""))));
    let text = format!(in alloc; "{BodyLimitExceeded}").expect(&rt, "memory");
    assert_same(&rt, text.as_str(), "body limit exceeded");
}
