//! A body has the same bytes and the same lines in every cutting; what is after a line is held.
use crate::compare::assert_same;
use crate::given_marks::Given::{self, Piece};
use crate::given_marks::GivenMarks;
use crate::requests::request_of;
use bytes::Bytes;
use std::alloc::Global;
use std::process::Abort;
use web_body::{Payload, Poll, ReadlinesError, Step};
use web_lines::Readlines;
use web_service::ServiceRequest;
use web_texts::Text;

/// `ab` and `cd`, each with a newline, in every cutting into three pieces.
const IN_THREE: &[&[Given]] = &[
    &[Piece(b"a"), Piece(b"b"), Piece(b"\ncd\n")],
    &[Piece(b"a"), Piece(b"b\n"), Piece(b"cd\n")],
    &[Piece(b"a"), Piece(b"b\nc"), Piece(b"d\n")],
    &[Piece(b"a"), Piece(b"b\ncd"), Piece(b"\n")],
    &[Piece(b"ab"), Piece(b"\n"), Piece(b"cd\n")],
    &[Piece(b"ab"), Piece(b"\nc"), Piece(b"d\n")],
    &[Piece(b"ab"), Piece(b"\ncd"), Piece(b"\n")],
    &[Piece(b"ab\n"), Piece(b"c"), Piece(b"d\n")],
    &[Piece(b"ab\n"), Piece(b"cd"), Piece(b"\n")],
    &[Piece(b"ab\nc"), Piece(b"d"), Piece(b"\n")],
];

fn payload_of(marks: &'static [Given]) -> Payload<GivenMarks> {
    Payload::Stream(GivenMarks::new(marks))
}

/// A reader of a payload under a limit.
fn reader_of(
    rt: &impl Abort,
    alloc: Global,
    payload: Payload<GivenMarks>,
    limit: usize,
) -> Readlines<GivenMarks> {
    let request = request_of(rt, alloc, "/lines", &[]);
    let mut service = ServiceRequest::from_parts(request, payload);
    Readlines::new(alloc, &mut service)
        .expect(rt, "memory")
        .limit(limit)
}

/// Compares the next answer of a source that does not stall.
fn assert_next(
    rt: &impl Abort,
    alloc: Global,
    reader: &mut Readlines<GivenMarks>,
    expected: Option<Result<&str, ReadlinesError>>,
) {
    match reader.poll_next(alloc) {
        Step::Pending => panic!(rt; "a stall"),
        Step::Ready(answer) => assert_answer(rt, &answer, expected),
        Step::NoMemory => panic!(rt; "memory"),
    }
}

fn assert_answer(
    rt: &impl Abort,
    found: &Option<Result<Text, ReadlinesError>>,
    expected: Option<Result<&str, ReadlinesError>>,
) {
    match found {
        Some(Ok(line)) => assert_same(rt, Some(Ok(line.as_str())), expected),
        Some(Err(error)) => assert_same(rt, Some(Err(*error)), expected),
        None => assert_same(rt, None, expected),
    }
}

/// Whether all bytes of these marks are these, under a limit; `None` where they pass it.
fn assert_collects(
    rt: &impl Abort,
    alloc: Global,
    marks: &'static [Given],
    limit: usize,
    expected: Option<&[u8]>,
) {
    let mut body = payload_of(marks).to_bytes_limited(alloc, limit);
    match body.poll(alloc) {
        Step::Ready(Ok(Ok(bytes))) => assert_same(rt, Some(bytes.as_slice()), expected),
        Step::Ready(Ok(Err(_))) => panic!(rt; "a fault"),
        Step::Ready(Err(_)) => assert_same(rt, None, expected),
        Step::Pending => panic!(rt; "a stall"),
        Step::NoMemory => panic!(rt; "memory"),
    }
}

#[test]
fn every_cutting_has_the_same_bytes(rt: HostRuntime) {
    for marks in IN_THREE {
        assert_collects(&rt, rt.alloc(), marks, 6, Some(b"ab\ncd\n"));
        assert_collects(&rt, rt.alloc(), marks, 5, None);
        assert_collects(&rt, rt.alloc(), marks, 0, None);
    }
}

#[test]
fn every_cutting_has_the_same_lines(rt: HostRuntime) {
    let alloc = rt.alloc();
    for marks in IN_THREE {
        let mut reader = reader_of(&rt, alloc, payload_of(marks), 3);
        assert_next(&rt, alloc, &mut reader, Some(Ok("ab\n")));
        assert_next(&rt, alloc, &mut reader, Some(Ok("cd\n")));
        assert_next(&rt, alloc, &mut reader, None);
        assert_next(&rt, alloc, &mut reader, None);
    }
}

#[test]
fn every_cutting_has_the_same_error(rt: HostRuntime) {
    let alloc = rt.alloc();
    for marks in IN_THREE {
        let mut reader = reader_of(&rt, alloc, payload_of(marks), 2);
        assert_next(
            &rt,
            alloc,
            &mut reader,
            Some(Err(ReadlinesError::LimitOverflow)),
        );
        assert_same(&rt, reader.buffered(), 0);
        assert_next(&rt, alloc, &mut reader, None);
    }
}

/// `a` and a newline in turn, 10,000 bytes.
fn short_lines(rt: &impl Abort, alloc: Global) -> Bytes {
    let mut bytes = Vec::new(alloc);
    for _ in 0..5_000 {
        bytes.extend_from_slice(b"a\n").expect(rt, "memory");
    }
    Bytes::from_vec(bytes).expect(rt, "memory")
}

#[test]
fn what_is_behind_the_first_line_is_buffered(rt: HostRuntime) {
    let alloc = rt.alloc();
    let payload = Payload::Whole(short_lines(&rt, alloc));
    let mut reader = reader_of(&rt, alloc, payload, 4);
    assert_next(&rt, alloc, &mut reader, Some(Ok("a\n")));
    assert_same(&rt, reader.buffered(), 9_998);
    assert_next(&rt, alloc, &mut reader, Some(Ok("a\n")));
    assert_same(&rt, reader.buffered(), 9_996);
}
