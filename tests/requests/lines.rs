//! The lines of bodies, one by one.
use crate::compare::assert_same;
use crate::given_marks::{Given, GivenMarks};
use crate::line_rows::{FIRST_TOO_LONG, SECOND_TOO_LONG, THIRD_TOO_LONG, UNREADABLE, WHOLE};
use crate::requests::request_of;
use std::alloc::Global;
use std::process::Abort;
use web_body::{Payload, ReadlinesError, Step};
use web_lines::{DEFAULT_LIMIT, Readlines};
use web_request::{HttpRequest, PlainApp};
use web_service::ServiceRequest;
use web_texts::{ContentTypeError, Text};

/// What is answered, and after how many polls in all that return `Pending`.
type Answer = (usize, Result<&'static str, ReadlinesError>);

/// A body, the limit of its lines, what is answered of them, and how often polls return `Pending`
/// up to the end.
pub(crate) struct LinesRow {
    pub marks: &'static [Given],
    pub limit: usize,
    pub answers: &'static [Answer],
    pub stalls: usize,
}

fn payload_with(given: &'static [Given]) -> Payload<GivenMarks> {
    Payload::Stream(GivenMarks::new(given))
}

fn request(rt: &impl Abort, alloc: Global) -> HttpRequest<PlainApp<GivenMarks>> {
    request_of(rt, alloc, "/lines", &[])
}

/// A reader of a payload with this limit.
fn reader_of(
    rt: &impl Abort,
    alloc: Global,
    payload: Payload<GivenMarks>,
    limit: usize,
) -> Readlines<GivenMarks> {
    let mut service = ServiceRequest::from_parts(request(rt, alloc), payload);
    Readlines::new(alloc, &mut service)
        .expect(rt, "memory")
        .limit(limit)
}

/// The next answer, and the number of polls before it that returned `Pending`.
fn next_answer(
    rt: &impl Abort,
    alloc: Global,
    reader: &mut Readlines<GivenMarks>,
) -> (usize, Option<Result<Text, ReadlinesError>>) {
    for stalls in 0..99 {
        match reader.poll_next(alloc) {
            Step::Pending => {}
            Step::Ready(answer) => return (stalls, answer),
            Step::NoMemory => panic!(rt; "memory"),
        }
    }
    panic!(rt; "no answer");
}

/// Compares an answer.
fn assert_answer(
    rt: &impl Abort,
    found: &Option<Result<Text, ReadlinesError>>,
    expected: Option<Result<&str, ReadlinesError>>,
) {
    match found {
        Some(Ok(line)) => assert_same(rt, Some(Ok(line.as_str())), expected),
        Some(Err(error)) => assert_same(rt, Some(Err(*error)), expected),
        None => assert_same(rt, None, expected),
    }
}

/// Reads the lines of a row to their end.
fn assert_lines(rt: &impl Abort, alloc: Global, row: &LinesRow) {
    let mut reader = reader_of(rt, alloc, payload_with(row.marks), row.limit);
    let mut stalls = 0;
    for (before, expected) in row.answers {
        let (met, found) = next_answer(rt, alloc, &mut reader);
        assert_answer(rt, &found, Some(*expected));
        assert_same(rt, Some(*before), usize::checked_add(stalls, met));
        stalls = *before;
    }
    let (met, end) = next_answer(rt, alloc, &mut reader);
    assert_answer(rt, &end, None);
    assert_same(rt, Some(row.stalls), usize::checked_add(stalls, met));
    assert_same(rt, reader.buffered(), 0);
    assert_answer(rt, &next_answer(rt, alloc, &mut reader).1, None);
}

#[test]
fn lines_are_answered_one_by_one(rt: HostRuntime) {
    for row in WHOLE {
        assert_lines(&rt, rt.alloc(), row);
    }
}

#[test]
fn lines_end_at_bad_text_and_at_a_fault(rt: HostRuntime) {
    for row in UNREADABLE {
        assert_lines(&rt, rt.alloc(), row);
    }
}

#[test]
fn lines_end_above_their_limit(rt: HostRuntime) {
    for row in FIRST_TOO_LONG {
        assert_lines(&rt, rt.alloc(), row);
    }
}

#[test]
fn lines_end_above_their_limit_in_the_second_part(rt: HostRuntime) {
    for row in SECOND_TOO_LONG {
        assert_lines(&rt, rt.alloc(), row);
    }
}

#[test]
fn lines_end_above_their_limit_in_the_third_part(rt: HostRuntime) {
    for row in THIRD_TOO_LONG {
        assert_lines(&rt, rt.alloc(), row);
    }
}

#[test]
fn what_is_not_answered_yet_is_buffered(rt: HostRuntime) {
    let alloc = rt.alloc();
    let payload = payload_with(&[Given::Piece(b"ab\ncd"), Given::Stall, Given::Piece(b"e")]);
    let mut reader = reader_of(&rt, alloc, payload, DEFAULT_LIMIT);
    assert_same(&rt, reader.buffered(), 0);
    assert_answer(
        &rt,
        &next_answer(&rt, alloc, &mut reader).1,
        Some(Ok("ab\n")),
    );
    assert_same(&rt, reader.buffered(), 2);
    assert_answer(
        &rt,
        &next_answer(&rt, alloc, &mut reader).1,
        Some(Ok("cde")),
    );
    assert_same(&rt, reader.buffered(), 0);
}

/// A content type, and why it is refused.
const REFUSED: &[(&[u8], ContentTypeError)] = &[
    (b"text", ContentTypeError::ParseError),
    (
        b"text/plain; charset=latin1",
        ContentTypeError::UnknownEncoding,
    ),
];

/// The reader answers with this error, and then with nothing.
fn assert_refused(
    rt: &impl Abort,
    alloc: Global,
    reader: &mut Readlines<GivenMarks>,
    error: ReadlinesError,
) {
    let (_, answer) = next_answer(rt, alloc, reader);
    assert_answer(rt, &answer, Some(Err(error)));
    let (_, answer) = next_answer(rt, alloc, reader);
    assert_answer(rt, &answer, None);
}

#[test]
fn a_refused_content_type_leaves_the_payload(rt: HostRuntime) {
    let alloc = rt.alloc();
    for (value, error) in REFUSED {
        let request = request_of(&rt, alloc, "/lines", &[("content-type", value)]);
        let mut service = ServiceRequest::from_parts(
            request,
            payload_with(&[Given::Piece(b"a\n")]),
        );
        let mut reader = Readlines::new(alloc, &mut service).expect(&rt, "memory");
        assert_refused(&rt, alloc, &mut reader, ReadlinesError::from(*error));
        assert_same(&rt, matches!(service.parts().1, Payload::Stream(_)), true);
    }
}

#[test]
fn a_request_of_its_own_has_no_lines(rt: HostRuntime) {
    let alloc = rt.alloc();
    let mut request = request(&rt, alloc);
    let mut reader: Readlines<GivenMarks> = Readlines::new(alloc, &mut request).expect(
        &rt, "memory",
    );
    assert_answer(&rt, &next_answer(&rt, alloc, &mut reader).1, None);
}
