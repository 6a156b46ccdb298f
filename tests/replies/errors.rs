//! Errors of any type that prints, prepared replies and mappers.
ghost use Rattle.std.specs.Prelude.{◌≡◌};

use crate::compare::{assert_holds, assert_same};
use crate::printed::assert_reply;
use crate::requests::new_request;
use http::StatusCode;
use http_header::{HeaderName, HeaderValue};
use std::alloc::Global;
use std::process::Abort;
use web_reply::{
    Error, HttpResponse, InternalError, MappedError, Responder, ResponseError, ResponseMapper,
    WholeBody,
};
use web_status::ErrorBadRequest;
use web_texts::NoMemory;

/// Adds the header `a` with this value.
#[derive(Drop)]
struct AddsHeader(&'static str);

impl ResponseMapper for AddsHeader {
    ghost maps = { λ mapper first last. last.body ≡ first.body };

    fn map(
        &self,
        alloc: Global,
        response: HttpResponse<WholeBody>,
    ) -> Result<HttpResponse<WholeBody>, NoMemory> {
        let mut response = response;
        let name = HeaderName::from_static("a");
        let Ok(value) = HeaderValue::from_str(alloc, self.0) else {
            return Err(NoMemory);
        };
        match response.headers_mut().append(name, value) {
            Ok(_) => Ok(response),
            Err(_) => Err(NoMemory),
        }
    }
}

/// The error of a bad request with the text `x`.
fn bad_request(rt: &impl Abort, alloc: Global) -> Error {
    ErrorBadRequest(alloc, "x").expect(rt, "memory")
}

fn add_mapper(rt: &impl Abort, alloc: Global, mapped: &mut MappedError, value: &'static str) {
    let mapper = Box::new(alloc, AddsHeader(value)).ok().expect(rt, "memory");
    let added = mapped.add_response_mapper(mapper);
    assert_holds(rt, "the mapper is added", added.is_ok());
}

/// Mappers run in their order each time the reply is asked for, and not where a response is made
/// from the error.
fn map_reply(rt: &impl Abort, alloc: Global) {
    let mut mapped = MappedError::new(alloc, bad_request(rt, alloc));
    add_mapper(rt, alloc, &mut mapped, "1");
    add_mapper(rt, alloc, &mut mapped, "2");
    let expected = "400; content-type: text/plain; charset=utf-8; a: 1; a: 2; bytes x";
    let reply = mapped.error_response(alloc).expect(rt, "memory");
    assert_reply(rt, alloc, reply, expected);
    let reply = mapped.error_response(alloc).expect(rt, "memory");
    assert_reply(rt, alloc, reply, expected);
    let MappedError { error, mappers: _ } = mapped;
    let reply = HttpResponse::from_error(alloc, error).expect(rt, "memory");
    assert_same(rt, reply.headers().len(), 1);
    assert_same(rt, reply.status().as_u16(), 400);
}

/// The reply of a status is made from the text each time.
fn reply_text(rt: &impl Abort, alloc: Global) {
    let mut error = InternalError::new("late", StatusCode::CONFLICT);
    let expected = "409; content-type: text/plain; charset=utf-8; bytes late";
    assert_same(rt, error.status_code().as_u16(), 409);
    let reply = error.error_response(alloc).expect(rt, "memory");
    assert_reply(rt, alloc, reply, expected);
    let reply = error.error_response(alloc).expect(rt, "memory");
    assert_reply(rt, alloc, reply, expected);
    let printed = format!(in alloc; "{error}").expect(rt, "memory");
    assert_same(rt, printed.as_str(), "late");
}

/// An error of a text, with an empty 202 prepared.
fn prepared(alloc: Global) -> InternalError<&'static str> {
    InternalError::from_response("late", HttpResponse::new(alloc, StatusCode::ACCEPTED))
}

/// A prepared reply is given once.
fn reply_prepared(rt: &impl Abort, alloc: Global) {
    let mut error = prepared(alloc);
    assert_same(rt, error.status_code().as_u16(), 202);
    let reply = error.error_response(alloc).expect(rt, "memory");
    assert_reply(rt, alloc, reply, "202; empty");
    assert_same(rt, error.status_code().as_u16(), 500);
    let reply = error.error_response(alloc).expect(rt, "memory");
    assert_reply(rt, alloc, reply, "500; empty");
}

/// An error responds its reply, which keeps the cause.
fn respond_error(rt: &impl Abort, alloc: Global, given: bool, expected: &str) {
    let request = new_request(rt, alloc, "/");
    let mut error = prepared(alloc);
    if given {
        let reply = error.error_response(alloc);
        assert_holds(rt, "the reply is given", reply.is_ok());
    }
    let reply = error.respond_to(alloc, &request).expect(rt, "memory");
    assert_reply(rt, alloc, reply, expected);
}

/// An error of a text, and what it responds as an `Error`.
fn turn_into_error(rt: &impl Abort, alloc: Global) {
    let error = InternalError::new("late", StatusCode::CONFLICT);
    let error = error.into_error(alloc).expect(rt, "memory");
    let reply = HttpResponse::from_error(alloc, error).expect(rt, "memory");
    assert_reply(
        rt,
        alloc,
        reply,
        "409; content-type: text/plain; charset=utf-8; bytes late; \
         Custom { status: 409, text: Text { text: \"late\" } }",
    );
}

#[test]
fn mappers_change_the_reply_alone(rt: HostRuntime) {
    map_reply(&rt, rt.alloc());
}

#[test]
fn a_prepared_reply_is_given_once(rt: HostRuntime) {
    reply_text(&rt, rt.alloc());
    reply_prepared(&rt, rt.alloc());
}

#[test]
fn errors_respond_their_reply(rt: HostRuntime) {
    respond_error(&rt, rt.alloc(), false, RESPONDED);
    respond_error(&rt, rt.alloc(), true, RESPONDED_AGAIN);
    turn_into_error(&rt, rt.alloc());
}

const RESPONDED: &str = "202; empty; Custom { status: 202, text: Text { text: \"late\" } }";

const RESPONDED_AGAIN: &str = "500; empty; Custom { status: 202, text: Text { text: \"late\" } }";
