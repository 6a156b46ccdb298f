//! JSON values, forms and one of both as responses.
use crate::item::{Item, Unwritten};
use crate::layered_requests::{Layer, Layered};
use crate::requests::body_request;
use http::StatusCode;
use http_header::{CONTENT_TYPE, HeaderMap, HeaderValue};
use std::alloc::Global;
use std::process::Abort;
use web_extract_body::{Either, Form, Json};
use web_reply::{EitherBody, HttpResponse, Responder, WholeBody};
use web_texts::Text;

/// A status, a content type and a body.
type Expected = (u16, &'static str, &'static str);

/// Compares the parts of a response.
fn assert_parts(
    rt: &impl Abort,
    status: StatusCode,
    headers: &HeaderMap<HeaderValue>,
    body: &WholeBody,
    expected: Expected,
) {
    let content_type = headers.get(CONTENT_TYPE).expect(rt, "a content type");
    let body: &[u8] = match body {
        WholeBody::Bytes(bytes) => bytes,
        WholeBody::Empty => &[],
    };
    let expected = (expected.0, expected.1.as_bytes(), expected.2.as_bytes());
    assert_eq!(rt; (status.as_u16(), content_type.as_bytes(), body), expected);
}

/// The response of a value.
fn response_of<R: Responder<Layered>>(
    rt: &impl Abort,
    alloc: Global,
    value: R,
) -> HttpResponse<R::Body> {
    let request = body_request(rt, alloc, Layer::new(), [None, None]);
    value.respond_to(alloc, &request).expect(rt, "memory")
}

fn assert_response<R: Responder<Layered, Body = WholeBody>>(
    rt: &impl Abort,
    alloc: Global,
    value: R,
    expected: Expected,
) {
    let reply = response_of(rt, alloc, value);
    assert_parts(rt, reply.status(), reply.headers(), reply.body(), expected);
}

/// The item of the name `a b` and the number 7.
fn item(rt: &impl Abort, alloc: Global) -> Item {
    Item {
        name: Text::of(alloc, "a b").expect(rt, "memory"),
        n: 7,
    }
}

const JSON: &str = "application/json";

const FORM: &str = "application/x-www-form-urlencoded";

const PLAIN: &str = "text/plain; charset=utf-8";

#[test]
fn a_refused_value_becomes_an_error_reply(rt: HostRuntime) {
    let alloc = rt.alloc();
    let refused = (500, PLAIN, "Json serialize error: too large");
    assert_response(&rt, alloc, Json(Unwritten(9)), refused);
    let float = (500, PLAIN, "Json serialize error: float");
    assert_response(&rt, alloc, Json(Unwritten(8)), float);
    let refused = (400, PLAIN, "Serialize error: too large.");
    assert_response(&rt, alloc, Form(Unwritten(9)), refused);
}

/// Compares the response of one of two values.
fn assert_side(
    rt: &impl Abort,
    alloc: Global,
    value: Either<Json<Item>, Form<Item>>,
    expected: Expected,
) {
    let reply = response_of(rt, alloc, value);
    let body = match reply.body() {
        EitherBody::Left(body) => body,
        EitherBody::Right(body) => body,
    };
    assert_parts(rt, reply.status(), reply.headers(), body, expected);
}

#[test]
fn either_side_becomes_its_response(rt: HostRuntime) {
    let alloc = rt.alloc();
    let left = Either::Left(Json(item(&rt, alloc)));
    let expected = (200, JSON, "{\"n\":7,\"name\":\"a b\"}");
    assert_side(&rt, alloc, left, expected);
    let right = Either::Right(Form(item(&rt, alloc)));
    assert_side(&rt, alloc, right, (200, FORM, "name=a+b&n=7"));
}
