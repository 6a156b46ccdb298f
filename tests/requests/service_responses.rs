//! Responses with the requests that they respond to.
use crate::compare::assert_same;
use crate::requests::{Site, request_of};
use bytes::Bytes;
use http::StatusCode;
use http_header::{HOST, HeaderValue};
use std::alloc::Global;
use std::process::Abort;
use web_body::PayloadError;
use web_reply::{BoxBody, EitherBody, Error, HttpResponse, ResponseHead, WholeBody};
use web_request::HttpRequest;
use web_service::ServiceResponse;

/// A response with the body `ab` to a request for `/a`.
fn answered(rt: &impl Abort, alloc: Global) -> ServiceResponse<Site, Bytes> {
    let body = Bytes::from_static(b"ab");
    let response = HttpResponse::with_body(alloc, StatusCode::OK, body);
    ServiceResponse::new(request_of(rt, alloc, "/a", &[]), response)
}

fn set_status(rt: &impl Abort, answered: &mut ServiceResponse<Site, Bytes>) {
    *answered.response_mut().status_mut() = StatusCode::CREATED;
    assert_same(rt, answered.status().as_u16(), 201);
}

fn set_host(rt: &impl Abort, answered: &mut ServiceResponse<Site, Bytes>) {
    let value = HeaderValue::from_static("h");
    answered
        .headers_mut()
        .insert(HOST, value)
        .expect(rt, "room");
    assert_same(rt, answered.headers().len(), 1);
}

/// Compares the path of the request and the length of the body.
fn assert_lent(rt: &impl Abort, answered: &ServiceResponse<Site, Bytes>) {
    let found = (answered.request().path(), answered.response().body().len());
    assert_same(rt, found, ("/a", 2));
}

/// Compares the path of the request and the status of the response.
fn assert_taken_apart(rt: &impl Abort, answered: ServiceResponse<Site, Bytes>) {
    let (request, response) = answered.into_parts();
    let found = (request.path(), response.status().as_u16());
    assert_same(rt, found, ("/a", 201));
}

#[test]
fn the_parts_of_a_response_are_read_and_changed(rt: HostRuntime) {
    let alloc = rt.alloc();
    let mut answered = answered(&rt, alloc);
    set_status(&rt, &mut answered);
    set_host(&rt, &mut answered);
    assert_lent(&rt, &answered);
    assert_taken_apart(&rt, answered);
}

/// Another response takes the place.
fn assert_replaced(rt: &impl Abort, alloc: Global) {
    let other = HttpResponse::new(alloc, StatusCode::NO_CONTENT);
    let response = answered(rt, alloc).into_response(other);
    assert_same(rt, response.status().as_u16(), 204);
}

/// The reply to an error takes the place.
fn assert_error_response(rt: &impl Abort, alloc: Global) {
    let error = Error::from(PayloadError::Overflow);
    let response = answered(rt, alloc)
        .error_response(alloc, error)
        .expect(rt, "memory");
    assert_same(rt, response.status().as_u16(), 413);
}

/// An error becomes the response to a request.
fn assert_from_err(rt: &impl Abort, alloc: Global) {
    let error = Error::from(PayloadError::Io);
    let request: HttpRequest<Site> = request_of(rt, alloc, "/a", &[]);
    let response = ServiceResponse::from_err(alloc, error, request).expect(rt, "memory");
    let found = (response.request().path(), response.status().as_u16());
    assert_same(rt, found, ("/a", 400));
}

#[test]
fn another_response_takes_the_place(rt: HostRuntime) {
    let alloc = rt.alloc();
    assert_replaced(&rt, alloc);
    assert_error_response(&rt, alloc);
    assert_from_err(&rt, alloc);
}

/// A function maps the head and the body.
fn assert_mapped(rt: &impl Abort, alloc: Global) {
    let mapped = answered(rt, alloc).map_body(|head: &mut ResponseHead, body: Bytes| -> usize {
        head.status = StatusCode::CREATED;
        body.len()
    });
    assert_same(rt, mapped.status().as_u16(), 201);
    assert_same(rt, mapped.into_body(), 2);
}

fn assert_left(rt: &impl Abort, alloc: Global) {
    let left = answered(rt, alloc).map_into_left_body::<WholeBody>();
    assert_same(rt, matches!(left.into_body(), EitherBody::Left(_)), true);
}

fn assert_right(rt: &impl Abort, alloc: Global) {
    let right = answered(rt, alloc).map_into_right_body::<WholeBody>();
    assert_same(rt, matches!(right.into_body(), EitherBody::Right(_)), true);
}

fn assert_boxed(rt: &impl Abort, alloc: Global) {
    let boxed = answered(rt, alloc)
        .map_into_boxed_body(alloc)
        .expect(rt, "memory");
    assert_same(rt, matches!(boxed.into_body(), BoxBody::Bytes(_)), true);
}

/// The response stays where the request is let go.
fn assert_response_alone(rt: &impl Abort, alloc: Global) {
    let response = HttpResponse::from(answered(rt, alloc));
    assert_same(rt, response.body().len(), 2);
}

#[test]
fn bodies_are_mapped(rt: HostRuntime) {
    let alloc = rt.alloc();
    assert_mapped(&rt, alloc);
    assert_left(&rt, alloc);
    assert_right(&rt, alloc);
    assert_boxed(&rt, alloc);
    assert_response_alone(&rt, alloc);
}
