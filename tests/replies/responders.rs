//! Values that become responses.
use crate::causes::conflict;
use crate::printed::assert_reply;
use crate::requests::{Site, new_request};
use bytes::{Bytes, BytesMut};
use http::StatusCode;
use std::alloc::Global;
use std::process::Abort;
use web_body::PayloadError;
use web_reply::{ByteStr, CowStr, Done, Error, HttpResponse, IoKind, Responder};
use web_request::Text;

/// Compares what a value responds to a request, through the trait alone.
fn assert_response<R: Responder<Site>>(rt: &impl Abort, alloc: Global, value: R, expected: &str) {
    let request = new_request(rt, alloc, "/");
    let reply = value.respond_to(alloc, &request).expect(rt, "memory");
    assert_reply(rt, alloc, reply, expected);
}

/// Compares a response of plain text.
fn assert_text<R: Responder<Site>>(rt: &impl Abort, alloc: Global, value: R, text: &str) {
    let expected = format!(in alloc;
        "200; content-type: text/plain; charset=utf-8; bytes {text}"
    ).expect(rt, "memory");
    assert_response(rt, alloc, value, expected.as_str());
}

/// Compares a response of bytes whose kind is not stated.
fn assert_bytes<R: Responder<Site>>(rt: &impl Abort, alloc: Global, value: R, bytes: &str) {
    let expected = format!(in alloc;
        "200; content-type: application/octet-stream; bytes {bytes}"
    ).expect(rt, "memory");
    assert_response(rt, alloc, value, expected.as_str());
}

fn string(rt: &impl Abort, alloc: Global, text: &str) -> String {
    String::from_str(alloc, text).expect(rt, "memory")
}

fn text(rt: &impl Abort, alloc: Global, text: &str) -> Text {
    Text::of(alloc, text).expect(rt, "memory")
}

/// The text of these bytes.
fn byte_text(rt: &impl Abort, bytes: &'static [u8]) -> ByteStr {
    ByteStr::of(Bytes::from_static(bytes))
        .ok()
        .expect(rt, "a text")
}

#[test]
fn texts_become_responses(rt: HostRuntime) {
    let alloc = rt.alloc();
    assert_text(&rt, alloc, "grün", "grün");
    assert_text(&rt, alloc, "", "");
    assert_text(&rt, alloc, &string(&rt, alloc, "string"), "string");
    assert_text(&rt, alloc, CowStr::Borrowed("lent"), "lent");
    assert_text(&rt, alloc, string(&rt, alloc, "string"), "string");
    assert_text(&rt, alloc, text(&rt, alloc, "text"), "text");
    let owned = CowStr::Owned(text(&rt, alloc, "owned"));
    assert_text(&rt, alloc, owned, "owned");
    assert_text(&rt, alloc, byte_text(&rt, b"bytes"), "bytes");
}

#[test]
fn bytes_become_responses(rt: HostRuntime) {
    let alloc = rt.alloc();
    let slice: &'static [u8] = b"slice";
    assert_bytes(&rt, alloc, slice, "slice");
    let vec = vec![in alloc; 0u8, 127].expect(&rt, "memory");
    assert_bytes(&rt, alloc, vec, "\0\u{7f}");
    assert_bytes(&rt, alloc, Bytes::from_static(b"shared"), "shared");
    let unique = BytesMut::copy_from_slice(alloc, b"unique").expect(&rt, "memory");
    assert_bytes(&rt, alloc, unique, "unique");
    assert_bytes(&rt, alloc, Bytes::new(), "");
}

#[test]
fn values_without_a_body_become_responses(rt: HostRuntime) {
    let alloc = rt.alloc();
    assert_response(&rt, alloc, Done::<Error>(Ok(())), "204; empty");
    assert_response(&rt, alloc, None::<Bytes>, "404; empty");
    let gone = (None::<Bytes>, StatusCode::GONE);
    assert_response(&rt, alloc, gone, "410; empty");
    let created = (Bytes::from_static(b"a"), StatusCode::CREATED);
    let expected = "201; content-type: application/octet-stream; bytes a";
    assert_response(&rt, alloc, created, expected);
    let accepted = HttpResponse::with_body(alloc, StatusCode::ACCEPTED, ());
    assert_response(&rt, alloc, accepted, "202; empty");
}

const OVERFLOW: &str = "413; content-type: text/plain; charset=utf-8; \
                        bytes payload reached its limit; Payload(Overflow)";

const NOT_FOUND: &str =
    "404; content-type: text/plain; charset=utf-8; bytes not found; Io(NotFound)";

const CONFLICT: &str = "409; content-type: text/plain; charset=utf-8; bytes x; \
                        Custom { status: 409, text: Text { text: \"x\" } }";

#[test]
fn values_that_may_be_refused_become_responses(rt: HostRuntime) {
    let alloc = rt.alloc();
    assert_bytes(&rt, alloc, Some(Bytes::from_static(b"some")), "some");
    let fine = Ok::<Bytes, Error>(Bytes::from_static(b"fine"));
    assert_bytes(&rt, alloc, fine, "fine");
    let overflow = Err::<Bytes, PayloadError>(PayloadError::Overflow);
    assert_response(&rt, alloc, overflow, OVERFLOW);
    assert_response(&rt, alloc, Done(Err(IoKind::NotFound)), NOT_FOUND);
    let conflict = Err::<Bytes, Error>(Error::from(conflict(&rt, alloc)));
    assert_response(&rt, alloc, conflict, CONFLICT);
}
