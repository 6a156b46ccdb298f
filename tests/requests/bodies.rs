//! Bodies of requests, and their collection.
use crate::compare::assert_same;
use crate::requests::{Site, new_request};
use bytes::Bytes;
use std::alloc::Global;
use std::process::Abort;
use web_body::{HttpMessageBody, Marks, Payload, PayloadError, Poll, Step};
use web_request::{Mark, Source, Turn};

/// `he`, an empty piece, a stall, `llo`.
fn hello(rt: &impl Abort, alloc: Global) -> Marks {
    let marks = vec![in alloc;
        Mark::Piece(Bytes::from_static(b"he")),
        Mark::Piece(Bytes::new()),
        Mark::Stall,
        Mark::Piece(Bytes::from_static(b"llo")),
    ];
    Marks::new(marks.expect(rt, "memory"))
}

/// `ab`, then a fault.
fn failing(rt: &impl Abort, alloc: Global) -> Marks {
    let marks = vec![in alloc; Mark::Piece(Bytes::from_static(b"ab")), Mark::Fault];
    Marks::new(marks.expect(rt, "memory"))
}

/// What a source is expected to give at one call.
enum ExpectedTurn {
    Piece(&'static [u8]),
    Stall,
    Fault,
    End,
}

/// Compares what one call gave.
fn assert_turn(rt: &impl Abort, turn: &Turn, expected: &ExpectedTurn) {
    let agrees = match (turn, expected) {
        (Turn::Piece(bytes), ExpectedTurn::Piece(expected)) => bytes.as_slice() == *expected,
        (Turn::Stall, ExpectedTurn::Stall)
        | (Turn::Fault, ExpectedTurn::Fault)
        | (Turn::End, ExpectedTurn::End) => true,
        _ => false,
    };
    assert!(rt; agrees);
}

/// Compares what the next calls of a source give, through the trait alone.
fn assert_source<S: Source>(rt: &impl Abort, source: &mut S, expected: &[ExpectedTurn]) {
    for turn in expected {
        assert_turn(rt, &source.next(), turn);
    }
}

/// Compares what the next calls of a payload give.
fn assert_payload(rt: &impl Abort, payload: &mut Payload<Marks>, expected: &[ExpectedTurn]) {
    for turn in expected {
        assert_turn(rt, &payload.poll_next(), turn);
    }
}

#[test]
fn sources_give_mark_by_mark(rt: HostRuntime) {
    let mut marks = failing(&rt, rt.alloc());
    assert_source(
        &rt,
        &mut marks,
        &[
            ExpectedTurn::Piece(b"ab"),
            ExpectedTurn::Fault,
            ExpectedTurn::End,
        ],
    );
}

#[test]
fn payloads_give_mark_by_mark(rt: HostRuntime) {
    let mut marks = hello(&rt, rt.alloc());
    assert_source(
        &rt,
        &mut marks,
        &[ExpectedTurn::Piece(b"he"), ExpectedTurn::Stall],
    );
    let mut stream = Payload::Stream(marks);
    let mut rest = stream.take().into_inner();
    assert_payload(&rt, &mut stream, &[ExpectedTurn::End]);
    assert_payload(
        &rt,
        &mut rest,
        &[ExpectedTurn::Piece(b"llo"), ExpectedTurn::End],
    );
    let mut whole = Payload::Whole(Bytes::from_static(b"ab"));
    assert_payload(
        &rt,
        &mut whole,
        &[ExpectedTurn::Piece(b"ab"), ExpectedTurn::End],
    );
}

/// Polls a future until its value is there. Returns the number of polls that returned `Pending`,
/// and the value.
pub(crate) fn value_of<F: Poll>(
    rt: &impl Abort,
    alloc: Global,
    mut future: F,
) -> (usize, F::Output) {
    for stalls in 0..9 {
        if future.finished() {
            panic!(rt; "finished without a value");
        }
        match future.poll(alloc) {
            Step::Pending => {}
            Step::Ready(value) => return (stalls, value),
            Step::NoMemory => panic!(rt; "memory"),
        }
    }
    panic!(rt; "no value");
}

/// The bytes or the refusal that are expected, after this number of polls that return `Pending`.
type ExpectedBytes<'a> = (usize, Result<&'a [u8], PayloadError>);

/// Compares collected bytes.
pub(crate) fn assert_collected(
    rt: &impl Abort,
    found: (usize, Result<Bytes, PayloadError>),
    expected: ExpectedBytes<'_>,
) {
    let agrees = match (&found.1, expected.1) {
        (Ok(bytes), Ok(expected)) => bytes.as_slice() == expected,
        (Err(error), Err(expected)) => *error == expected,
        _ => false,
    };
    assert_same(rt, (found.0, agrees), (expected.0, true));
}

/// Collects a payload up to a limit, and compares the result.
fn assert_collects(
    rt: &impl Abort,
    alloc: Global,
    mut payload: Payload<Marks>,
    limit: usize,
    expected: ExpectedBytes<'_>,
) {
    let request = new_request(rt, alloc, "/bytes");
    let body = HttpMessageBody::new(alloc, &request, &mut payload).limit(limit);
    assert_collected(rt, value_of(rt, alloc, body), expected);
}

#[test]
fn a_body_is_collected_up_to_its_limit(rt: HostRuntime) {
    let alloc = rt.alloc();
    let overflow = Err(PayloadError::Overflow);
    for (limit, stalls, expected) in [
        (5, 1, Ok(b"hello".as_slice())),
        (4, 1, overflow),
        (1, 0, overflow),
    ] {
        let stream = Payload::Stream(hello(&rt, alloc));
        assert_collects(&rt, alloc, stream, limit, (stalls, expected));
    }
    let whole = b"hello".as_slice();
    for (limit, expected) in [(5, Ok(whole)), (4, overflow)] {
        let whole = Payload::Whole(Bytes::from_static(whole));
        assert_collects(&rt, alloc, whole, limit, (0, expected));
    }
    let stream = Payload::Stream(failing(&rt, alloc));
    assert_collects(&rt, alloc, stream, 2, (0, Err(PayloadError::Io)));
    assert_collects(&rt, alloc, Payload::None, 0, (0, Ok(b"")));
}
