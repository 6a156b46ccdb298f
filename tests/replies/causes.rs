//! Errors, their causes and the replies to them.
use crate::compare::assert_same;
use crate::printed::assert_reply;
use http::StatusCode;
use std::alloc::Global;
use std::process::Abort;
use web_body::PayloadError;
use web_reply::{Cause, Error, HttpError, HttpResponse, IoKind, ResponseError, WholeBody};
use web_request::Text;
use web_texts::{ContentTypeError, InvalidHeaderValue, ParseError};

/// The status of a cause, its text, and the form that `Debug` prints.
type Row = (u16, &'static str, &'static str);

/// Compares a reply of plain text, and the cause that it keeps, if any.
fn assert_plain(
    rt: &impl Abort,
    alloc: Global,
    reply: HttpResponse<WholeBody>,
    row: &Row,
    cause: &str,
) {
    let (status, text, _) = row;
    let expected = format!(in alloc;
        "{status}; content-type: text/plain; charset=utf-8; bytes {text}{cause}"
    ).expect(rt, "memory");
    assert_reply(rt, alloc, reply, expected.as_str());
}

/// Compares the status, the text and the reply of an error, through the trait alone. The reply
/// keeps no cause.
fn assert_response_error<E: ResponseError>(
    rt: &impl Abort,
    alloc: Global,
    error: &mut E,
    row: &Row,
) {
    assert_same(rt, error.status_code().as_u16(), row.0);
    let text = error.to_string(alloc).expect(rt, "memory");
    assert_same(rt, text.as_str(), row.1);
    let reply = error.error_response(alloc).expect(rt, "memory");
    assert_plain(rt, alloc, reply, row, "");
}

/// Compares the text, the cause and the reply of an error.
fn assert_error(rt: &impl Abort, alloc: Global, error: Error, row: &Row) {
    let cause = error.cause();
    let response_error = error.as_response_error();
    let found = format!(in alloc; "{error}; {cause:?}; {response_error:?}").expect(rt, "memory");
    let (_, text, debug) = row;
    let expected = format!(in alloc; "{text}; {debug}; {debug}").expect(rt, "memory");
    assert_same(rt, found.as_str(), expected.as_str());
    let reply = HttpResponse::from_error(alloc, error).expect(rt, "memory");
    let kept = format!(in alloc; "; {debug}").expect(rt, "memory");
    assert_plain(rt, alloc, reply, row, kept.as_str());
}

/// Compares a cause, and the error that it becomes.
fn assert_becomes(rt: &impl Abort, alloc: Global, mut cause: Cause, row: &Row) {
    assert_response_error(rt, alloc, &mut cause, row);
    assert_error(rt, alloc, Error::from(cause), row);
}

const PAYLOAD_FAULTS: &[(PayloadError, Row)] = &[
    (
        PayloadError::Overflow,
        (413, "payload reached its limit", "Payload(Overflow)"),
    ),
    (
        PayloadError::UnknownLength,
        (400, "payload length is unknown", "Payload(UnknownLength)"),
    ),
    (
        PayloadError::Io,
        (400, "payload read failed", "Payload(Io)"),
    ),
    (
        PayloadError::UnsupportedEncoding,
        (
            400,
            "content coding is not supported",
            "Payload(UnsupportedEncoding)",
        ),
    ),
];

const HTTP_FAULTS: &[(HttpError, Row)] = &[
    (HttpError::Name, (500, "invalid header name", "Http(Name)")),
    (
        HttpError::Value,
        (500, "invalid header value", "Http(Value)"),
    ),
    (
        HttpError::MaxSize,
        (500, "too many headers", "Http(MaxSize)"),
    ),
];

const CONTENT_TYPE_FAULTS: &[(ContentTypeError, Row)] = &[
    (
        ContentTypeError::ParseError,
        (400, "can not parse content type", "ContentType(ParseError)"),
    ),
    (
        ContentTypeError::UnknownEncoding,
        (
            400,
            "unknown content encoding",
            "ContentType(UnknownEncoding)",
        ),
    ),
];

const IO_KINDS: &[(IoKind, Row)] = &[
    (IoKind::NotFound, (404, "not found", "Io(NotFound)")),
    (
        IoKind::PermissionDenied,
        (403, "permission denied", "Io(PermissionDenied)"),
    ),
    (IoKind::Other, (500, "input or output failed", "Io(Other)")),
];

const UNREAD: Row = (400, "invalid header", "Parse(Header)");

const UNWRITTEN: Row = (
    400,
    "invalid header value",
    "HeaderValue(InvalidHeaderValue)",
);

#[test]
fn faults_of_bodies_are_causes(rt: HostRuntime) {
    let alloc = rt.alloc();
    for (fault, row) in PAYLOAD_FAULTS {
        assert_becomes(&rt, alloc, Cause::Payload(*fault), row);
        assert_error(&rt, alloc, Error::from(*fault), row);
    }
}

#[test]
fn faults_of_headers_are_causes(rt: HostRuntime) {
    let alloc = rt.alloc();
    for (fault, row) in HTTP_FAULTS {
        assert_becomes(&rt, alloc, Cause::Http(*fault), row);
        assert_error(&rt, alloc, Error::from(*fault), row);
    }
    for (fault, row) in CONTENT_TYPE_FAULTS {
        assert_becomes(&rt, alloc, Cause::ContentType(*fault), row);
        assert_error(&rt, alloc, Error::from(*fault), row);
    }
    assert_becomes(&rt, alloc, Cause::Parse(ParseError::Header), &UNREAD);
    assert_error(&rt, alloc, Error::from(ParseError::Header), &UNREAD);
    assert_becomes(
        &rt,
        alloc,
        Cause::HeaderValue(InvalidHeaderValue),
        &UNWRITTEN,
    );
    assert_error(&rt, alloc, Error::from(InvalidHeaderValue), &UNWRITTEN);
}

/// A refusal of an application's own.
pub(crate) fn conflict(rt: &impl Abort, alloc: Global) -> Cause {
    Cause::Custom {
        status: StatusCode::CONFLICT,
        text: Text::of(alloc, "x").expect(rt, "memory"),
    }
}

#[test]
fn other_faults_are_causes(rt: HostRuntime) {
    let alloc = rt.alloc();
    for (kind, row) in IO_KINDS {
        assert_becomes(&rt, alloc, Cause::Io(*kind), row);
        assert_error(&rt, alloc, Error::from(*kind), row);
    }
    assert_becomes(&rt, alloc, Cause::Utf8, &(400, "invalid UTF-8", "Utf8"));
    let custom = "Custom { status: 409, text: Text { text: \"x\" } }";
    assert_becomes(&rt, alloc, conflict(&rt, alloc), &(409, "x", custom));
}

const TWO_JOINED: Row = (
    409,
    "x\ninvalid UTF-8",
    "Several(Causes { members: [Member { status: 409, text: Text { text: \"x\" } }, \
     Member { status: 400, text: Text { text: \"invalid UTF-8\" } }] })",
);

const THREE_JOINED: Row = (
    404,
    "not found\nx\ninvalid UTF-8",
    "Several(Causes { members: [Member { status: 404, text: Text { text: \"not found\" } }, \
     Member { status: 409, text: Text { text: \"x\" } }, \
     Member { status: 400, text: Text { text: \"invalid UTF-8\" } }] })",
);

/// Two errors as one.
fn two_joined(rt: &impl Abort, alloc: Global) -> Error {
    let conflict = Error::from(conflict(rt, alloc));
    let errors = vec![in alloc; conflict, Error::from(Cause::Utf8)].expect(rt, "memory");
    Error::join(alloc, errors).expect(rt, "memory")
}

#[test]
fn errors_are_joined(rt: HostRuntime) {
    let alloc = rt.alloc();
    let alone = vec![in alloc; Error::from(Cause::Utf8)].expect(&rt, "memory");
    let alone = Error::join(alloc, alone).expect(&rt, "memory");
    assert_error(&rt, alloc, alone, &(400, "invalid UTF-8", "Utf8"));
    assert_error(&rt, alloc, two_joined(&rt, alloc), &TWO_JOINED);
    let missing = Error::from(Cause::Io(IoKind::NotFound));
    let nested = vec![in alloc; missing, two_joined(&rt, alloc)].expect(&rt, "memory");
    let all = Error::join(alloc, nested).expect(&rt, "memory");
    assert_error(&rt, alloc, all, &THREE_JOINED);
}

#[test]
fn members_of_joined_errors_are_read(rt: HostRuntime) {
    let alloc = rt.alloc();
    let error = two_joined(&rt, alloc);
    let mut statuses = [0; 2];
    if let Cause::Several(causes) = error.cause() {
        for (status, member) in statuses.iter_mut().zip(causes.iter()) {
            *status = member.status.as_u16();
        }
    }
    assert_same(&rt, statuses, [409, 400]);
}
