//! The calls of a response.
use crate::compare::assert_same;
use crate::printed::{assert_body, assert_reply};
use bytes::Bytes;
use http::{StatusCode, Version};
use http_header::{CONTENT_TYPE, HeaderValue};
use std::alloc::Global;
use std::process::Abort;
use web_reply::{
    BodySize, Cause, ConnectionType, Error, HttpResponse, Reason, ResponseHead, WholeBody,
};
use web_request::Text;

/// A reply of 201 with the body `a`.
fn created(alloc: Global) -> HttpResponse<Bytes> {
    HttpResponse::with_body(alloc, StatusCode::CREATED, Bytes::from_static(b"a"))
}

fn set_type(rt: &impl Abort, reply: &mut HttpResponse<WholeBody>) {
    let css = HeaderValue::from_static("text/css");
    let before = reply.headers_mut().insert(CONTENT_TYPE, css);
    assert_same(rt, (before.is_ok(), reply.headers().len()), (true, 1));
}

fn set_reason(reply: &mut HttpResponse<WholeBody>) {
    reply.head_mut().reason = Some(Reason::of("Short and stout"));
}

#[test]
fn the_head_of_a_response_is_set(rt: HostRuntime) {
    let mut reply = HttpResponse::new(rt.alloc(), StatusCode::OK);
    *reply.status_mut() = StatusCode::IM_A_TEAPOT;
    set_type(&rt, &mut reply);
    set_reason(&mut reply);
    assert_same(&rt, reply.status().as_u16(), 418);
    let expected = "418 (Short and stout); content-type: text/css; empty";
    assert_reply(&rt, rt.alloc(), reply, expected);
}

/// A version, what is said of the connection, and whether it is kept or handed on.
const CONNECTIONS: &[(Version, Option<ConnectionType>, bool, bool)] = &[
    (Version::HTTP_11, None, true, false),
    (Version::HTTP_10, None, false, false),
    (Version::HTTP_2, None, false, false),
    (
        Version::HTTP_10,
        Some(ConnectionType::KeepAlive),
        true,
        false,
    ),
    (Version::HTTP_11, Some(ConnectionType::Close), false, false),
    (Version::HTTP_11, Some(ConnectionType::Upgrade), false, true),
];

#[test]
fn a_connection_is_kept_by_version_and_type(rt: HostRuntime) {
    let mut reply = HttpResponse::new(rt.alloc(), StatusCode::OK);
    for (version, connection, is_kept, is_upgraded) in CONNECTIONS {
        let head = reply.head_mut();
        head.version = *version;
        head.connection = *connection;
        let found = (reply.keep_alive(), reply.upgrade());
        assert_same(&rt, found, (*is_kept, *is_upgraded));
    }
}

/// Takes the body out of a response.
fn take_body(rt: &impl Abort, alloc: Global) {
    let (rest, body) = created(alloc).into_parts();
    assert_reply(rt, alloc, rest, "201; empty");
    assert_body(rt, alloc, body, BodySize::Sized(1), "; bytes a");
    let body = created(alloc).into_body();
    assert_body(rt, alloc, body, BodySize::Sized(1), "; bytes a");
}

#[test]
fn a_body_is_taken_away(rt: HostRuntime) {
    let alloc = rt.alloc();
    take_body(&rt, alloc);
    assert_reply(&rt, alloc, created(alloc).drop_body(), "201; empty");
    let refused = HttpResponse::from_error(alloc, Error::from(Cause::Utf8)).expect(&rt, "memory");
    let expected = "400; content-type: text/plain; charset=utf-8; empty; Utf8";
    assert_reply(&rt, alloc, refused.drop_body(), expected);
}

#[test]
fn a_body_is_changed(rt: HostRuntime) {
    let alloc = rt.alloc();
    let other = Text::of(alloc, "b").expect(&rt, "memory");
    assert_reply(&rt, alloc, created(alloc).set_body(other), "201; bytes b");
    let mapped = created(alloc).map_body(|head: &mut ResponseHead, body: Bytes| {
        head.status = StatusCode::ACCEPTED;
        WholeBody::Bytes(body)
    });
    assert_reply(&rt, alloc, mapped, "202; bytes a");
    let left = created(alloc).map_into_left_body::<()>();
    assert_reply(&rt, alloc, left, "201; bytes a");
    let right = created(alloc).map_into_right_body::<()>();
    assert_reply(&rt, alloc, right, "201; bytes a");
}
