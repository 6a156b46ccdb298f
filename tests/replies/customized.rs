//! Responders whose response is changed.
use crate::printed::assert_reply;
use crate::requests::new_request;
use http::StatusCode;
use http_header::{CONTENT_TYPE, HeaderName, HeaderValue};
use std::alloc::Global;
use std::process::Abort;
use web_build::CustomizeResponder;
use web_build::prelude::*;
use web_cookies::Cookie;
use web_reply::{HttpResponse, Responder};

/// Compares the response of a customized text.
fn assert_customized(
    rt: &impl Abort,
    alloc: Global,
    customized: CustomizeResponder<&'static str>,
    expected: &str,
) {
    let request = new_request(rt, alloc, "/");
    let reply = customized.respond_to(alloc, &request).expect(rt, "memory");
    assert_reply(rt, alloc, reply, expected);
}

/// The text `x`, not changed yet.
fn plain(rt: &impl Abort, alloc: Global) -> CustomizeResponder<&'static str> {
    "x".customize(alloc).expect(rt, "memory")
}

/// The status, an override and an added header of the same name.
fn layer_all(rt: &impl Abort, alloc: Global) {
    let customized = plain(rt, alloc)
        .with_status(StatusCode::CREATED)
        .try_insert_header("a", "1")
        .expect(rt, "memory")
        .try_append_header("a", "2")
        .expect(rt, "memory");
    assert_customized(
        rt,
        alloc,
        customized,
        "201; content-type: text/plain; charset=utf-8; a: 1; a: 2; bytes x",
    );
}

/// An override replaces a header of the responder, and an earlier override.
fn override_type(rt: &impl Abort, alloc: Global) {
    let customized = plain(rt, alloc)
        .insert_header(CONTENT_TYPE, HeaderValue::from_static("text/css"))
        .expect(rt, "memory")
        .try_with_header("Content-Type", "text/xml")
        .expect(rt, "memory");
    assert_customized(
        rt,
        alloc,
        customized,
        "200; content-type: text/xml; bytes x",
    );
}

/// A name that is refused, after which nothing changes.
fn refuse_name(rt: &impl Abort, alloc: Global) {
    let customized = plain(rt, alloc)
        .try_append_header("a b", "a\nb")
        .expect(rt, "memory")
        .with_status(StatusCode::CREATED)
        .append_header(
            HeaderName::from_static("x-a"),
            HeaderValue::from_static("1"),
        )
        .expect(rt, "memory")
        .with_header(
            HeaderName::from_static("x-a"),
            HeaderValue::from_static("1"),
        )
        .expect(rt, "memory");
    assert_customized(
        rt,
        alloc,
        customized,
        "500; content-type: text/plain; charset=utf-8; bytes invalid header name; Http(Name)",
    );
}

/// A cookie is added.
fn add_cookie(rt: &impl Abort, alloc: Global) {
    let cookie = Cookie::parse(alloc, "a=b").ok().expect(rt, "a cookie");
    let customized = plain(rt, alloc).add_cookie(&cookie).expect(rt, "memory");
    assert_customized(
        rt,
        alloc,
        customized,
        "200; content-type: text/plain; charset=utf-8; set-cookie: a=b; bytes x",
    );
}

/// The calls that change any responder.
fn change_at_once(rt: &impl Abort, alloc: Global) {
    let created = "x"
        .with_status(alloc, StatusCode::CREATED)
        .expect(rt, "memory");
    assert_customized(
        rt,
        alloc,
        created,
        "201; content-type: text/plain; charset=utf-8; bytes x",
    );
    let name = HeaderName::from_static("x-a");
    let value = HeaderValue::from_static("1");
    let reply = HttpResponse::new(alloc, StatusCode::OK);
    let with_header = reply.with_header(alloc, name, value).expect(rt, "memory");
    let request = new_request(rt, alloc, "/");
    let reply = with_header.respond_to(alloc, &request).expect(rt, "memory");
    assert_reply(rt, alloc, reply, "200; x-a: 1; empty");
}

#[test]
fn responses_are_changed_in_layers(rt: HostRuntime) {
    layer_all(&rt, rt.alloc());
    override_type(&rt, rt.alloc());
    refuse_name(&rt, rt.alloc());
    add_cookie(&rt, rt.alloc());
    change_at_once(&rt, rt.alloc());
}
