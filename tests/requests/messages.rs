//! What the header fields of a message say of its body.
use crate::compare::{assert_holds, assert_same};
use crate::requests::{add, head};
use http_header::{CONTENT_TYPE, HeaderName, TRANSFER_ENCODING};
use std::alloc::Global;
use std::process::Abort;
use web_request::{HttpMessage, RequestHead};
use web_texts::{ContentTypeError, Fail, ParseError};

/// A head with this header.
fn head_with(rt: &impl Abort, alloc: Global, name: HeaderName, value: &[u8]) -> RequestHead {
    let mut head = head(rt, alloc, "/");
    add(rt, alloc, &mut head, name, value);
    head
}

/// Compares the media type of a message without its parameters.
fn assert_essence(
    rt: &impl Abort,
    alloc: Global,
    head: &RequestHead,
    expected: Result<Option<&str>, ContentTypeError>,
) {
    match head.mime_type(alloc) {
        Ok(Some(mime)) => assert_same(rt, Ok(Some(mime.essence())), expected),
        Ok(None) => assert_same(rt, Ok(None), expected),
        Err(Fail::Of(error)) => assert_same(rt, Err(error), expected),
        Err(Fail::NoMemory) => assert_holds(rt, "memory", false),
    }
}

const NO_TYPE: Result<Option<&str>, ContentTypeError> = Err(ContentTypeError::ParseError);

const NO_TYPE_TO_TEST: Result<(), Fail<ContentTypeError>> = Err(Fail::Of(
    ContentTypeError::ParseError,
));

const OTHER_CHARSET: Result<(), Fail<ContentTypeError>> = Err(Fail::Of(
    ContentTypeError::UnknownEncoding,
));

/// A Content-Type, its part before the parameters, its media type without them, and the test of its
/// charset.
type TypeRow = (
    &'static [u8],
    &'static str,
    Result<Option<&'static str>, ContentTypeError>,
    Result<(), Fail<ContentTypeError>>,
);

const TYPES: &[TypeRow] = &[
    (
        b"text/plain ;\tcharset=utf-8",
        "text/plain",
        Ok(Some("text/plain")),
        Ok(()),
    ),
    (
        b"application/json ;charset=\"UTF-8\"",
        "application/json",
        Ok(Some("application/json")),
        Ok(()),
    ),
    (
        b"APPLICATION/JSON",
        "APPLICATION/JSON",
        Ok(Some("application/json")),
        Ok(()),
    ),
    (
        b"a/+json;Charset=Utf8",
        "a/+json",
        Ok(Some("a/+json")),
        Ok(()),
    ),
    (b"*/*;charset=latin1", "*/*", Ok(Some("*/*")), OTHER_CHARSET),
    (
        b"text/plain;charset=\"\"",
        "text/plain",
        Ok(Some("text/plain")),
        OTHER_CHARSET,
    ),
    (
        b"text/plain;charset=utf-16;charset=utf-8",
        "text/plain",
        Ok(Some("text/plain")),
        OTHER_CHARSET,
    ),
    (
        b"text/plain;charset=",
        "text/plain",
        NO_TYPE,
        NO_TYPE_TO_TEST,
    ),
    (b"text/plain;;", "text/plain", NO_TYPE, NO_TYPE_TO_TEST),
    (b"\ttext/plain ", "text/plain", NO_TYPE, NO_TYPE_TO_TEST),
    (b"a/b;c=\"d", "a/b", NO_TYPE, NO_TYPE_TO_TEST),
    (b"text", "text", NO_TYPE, NO_TYPE_TO_TEST),
    (b"", "", NO_TYPE, NO_TYPE_TO_TEST),
    (b"text/pl\xE4in", "", NO_TYPE, NO_TYPE_TO_TEST),
];

#[test]
fn a_content_type_is_read(rt: HostRuntime) {
    let alloc = rt.alloc();
    for (value, content_type, essence, encoding) in TYPES {
        let head = head_with(&rt, alloc, CONTENT_TYPE, value);
        assert_same(&rt, head.content_type(), *content_type);
        assert_essence(&rt, alloc, &head, *essence);
        assert_same(&rt, head.encoding(alloc), *encoding);
    }
}

#[test]
fn without_headers_a_message_is_utf8_and_not_chunked(rt: HostRuntime) {
    let alloc = rt.alloc();
    let head = head(&rt, alloc, "/");
    assert_same(&rt, head.content_type(), "");
    assert_essence(&rt, alloc, &head, Ok(None));
    assert_same(&rt, head.encoding(alloc), Ok(()));
    assert_same(&rt, head.chunked(), Ok(false));
}

/// A Transfer-Encoding, and whether it is chunked.
const CODINGS: &[(&[u8], Result<bool, ParseError>)] = &[
    (b"chunked", Ok(true)),
    (b"gzip, CHUNKED", Ok(true)),
    (b"xchunkedx", Ok(true)),
    (b"chunke", Ok(false)),
    (b"", Ok(false)),
    (b"chunked\xFF", Err(ParseError::Header)),
];

#[test]
fn a_transfer_encoding_is_read(rt: HostRuntime) {
    for (value, expected) in CODINGS {
        let head = head_with(&rt, rt.alloc(), TRANSFER_ENCODING, value);
        assert_same(&rt, head.chunked(), *expected);
    }
}
