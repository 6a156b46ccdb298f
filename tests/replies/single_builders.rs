//! Single calls of builders.
use crate::builders::stalling_payload;
use crate::compare::{assert_holds, assert_same};
use crate::printed::assert_reply;
use crate::requests::new_request;
use http::StatusCode;
use http_header::{CONTENT_TYPE, HeaderName, HeaderValue};
use std::alloc::Global;
use std::process::Abort;
use web_body::{Poll, Step};
use web_build::HttpResponseBuilder;
use web_build::prelude::*;
use web_reply::{Error, HttpResponse, Responder};
use web_status::prelude::*;

/// A message of an empty body.
fn message(rt: &impl Abort, builder: &mut HttpResponseBuilder) -> Result<HttpResponse<()>, Error> {
    if builder.is_spent() {
        panic!(rt; "the builder is spent");
    }
    builder.message_body(())
}

/// The refused name is returned, then the response is there without a header, and then nothing is
/// left.
fn keep_error_once(rt: &impl Abort, alloc: Global) {
    let mut builder = HttpResponse::Ok(alloc);
    builder.try_insert_header("a b", "x").expect(rt, "memory");
    let error = message(rt, &mut builder).err().expect(rt, "an error");
    let text = format!(in alloc; "{error}").expect(rt, "memory");
    assert_same(rt, text.as_str(), "invalid header name");
    let reply = message(rt, &mut builder).ok().expect(rt, "a response");
    assert_reply(rt, alloc, reply, "200; empty");
    assert_holds(rt, "the builder is spent", builder.is_spent());
}

/// Content-Length decides on the form of a streamed body.
fn stream_with_length(rt: &impl Abort, alloc: Global) {
    let mut builder = HttpResponse::Ok(alloc);
    builder
        .try_insert_header("content-length", "3")
        .expect(rt, "memory");
    let builder = builder.take();
    if builder.is_spent() {
        panic!(rt; "the builder is spent");
    }
    let reply = builder.streaming(stalling_payload(rt, alloc));
    assert_reply(
        rt,
        alloc,
        reply.expect(rt, "memory"),
        "200 no-chunking; content-length: 3; content-type: application/octet-stream; \
         sized 3 ab stall",
    );
}

/// A value that is refused is left out, and the connection is upgraded all the same.
fn upgrade_with_bad_value(rt: &impl Abort, alloc: Global) {
    let mut builder = HttpResponse::Ok(alloc);
    builder.upgrade("a\nb").expect(rt, "memory");
    let reply = message(rt, &mut builder).ok().expect(rt, "a response");
    assert_reply(rt, alloc, reply, "200 upgrade; empty");
}

/// Values that are known to be good are set and added.
fn set_good_values(rt: &impl Abort, alloc: Global) {
    let mut builder = HttpResponse::build(alloc, StatusCode::CREATED);
    let css = HeaderValue::from_static("text/css");
    builder
        .insert_header(CONTENT_TYPE, css)
        .expect(rt, "memory");
    let name = HeaderName::from_static("x-a");
    let one = HeaderValue::from_static("1");
    builder.append_header(name, one).expect(rt, "memory");
    let name = HeaderName::from_static("x-a");
    let two = HeaderValue::from_static("2");
    builder.append_header(name, two).expect(rt, "memory");
    let reply = message(rt, &mut builder).ok().expect(rt, "a response");
    assert_reply(
        rt,
        alloc,
        reply,
        "201; content-type: text/css; x-a: 1; x-a: 2; empty",
    );
}

/// What is taken goes on, and what is left is spent: setters change nothing there.
fn take_content(rt: &impl Abort, alloc: Global) {
    let mut builder = HttpResponse::NotFound(alloc);
    let mut taken = builder.take();
    assert_holds(rt, "the builder is spent", builder.is_spent());
    builder.status(StatusCode::OK).keep_alive();
    builder.try_insert_header("a", "1").expect(rt, "memory");
    assert_holds(rt, "the builder is still spent", builder.is_spent());
    let reply = message(rt, &mut taken).ok().expect(rt, "a response");
    assert_reply(rt, alloc, reply, "404; empty");
    assert_holds(rt, "nothing is left", builder.take().is_spent());
}

/// A builder responds what it builds, and a spent one an empty 500.
fn respond_built(rt: &impl Abort, alloc: Global) {
    let request = new_request(rt, alloc, "/");
    let mut builder = HttpResponse::Accepted(alloc);
    let taken = builder.take();
    let reply = taken.respond_to(alloc, &request).expect(rt, "memory");
    assert_reply(rt, alloc, reply, "202; empty");
    let reply = builder.respond_to(alloc, &request).expect(rt, "memory");
    assert_reply(rt, alloc, reply, "500; empty");
}

/// The first poll gives the response.
fn poll_built(rt: &impl Abort, alloc: Global) {
    let mut builder = HttpResponse::Accepted(alloc);
    if builder.finished() {
        panic!(rt; "the builder is finished");
    }
    match builder.poll(alloc) {
        Step::Ready(reply) => assert_reply(rt, alloc, reply, "202; empty"),
        Step::Pending | Step::NoMemory => panic!(rt; "no response"),
    }
    assert_holds(rt, "the builder is finished", builder.finished());
}

#[test]
fn an_error_is_kept_until_it_is_returned(rt: HostRuntime) {
    keep_error_once(&rt, rt.alloc());
}

#[test]
fn a_length_and_an_upgrade_are_said(rt: HostRuntime) {
    stream_with_length(&rt, rt.alloc());
    upgrade_with_bad_value(&rt, rt.alloc());
}

#[test]
fn known_values_are_set_and_added(rt: HostRuntime) {
    set_good_values(&rt, rt.alloc());
}

#[test]
fn a_builder_is_taken_polled_and_responds(rt: HostRuntime) {
    take_content(&rt, rt.alloc());
    respond_built(&rt, rt.alloc());
    poll_built(&rt, rt.alloc());
}
