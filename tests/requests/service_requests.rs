//! Requests with their payloads.
use crate::compare::assert_same;
use crate::requests::{Site, payload_of, request_of};
use bytes::Bytes;
use http::{Method, StatusCode};
use http_header::{HOST, HeaderValue};
use std::alloc::Global;
use std::process::Abort;
use std::rc::Rc;
use web_body::{Marks, Payload, PayloadError, Poll, Step, TakePayload};
use web_reply::{Error, HttpResponse, WholeBody};
use web_request::cookies::CookiePair;
use web_request::{HttpMessage, HttpRequest, NoData};
use web_service::{ServiceRequest, ServiceResponse};

/// A request for `/a?b=c` with the body `hello`.
fn service(rt: &impl Abort, alloc: Global) -> ServiceRequest<Site> {
    let fields = [("host", b"h".as_slice()), ("cookie", b"a=%31")];
    let request = request_of(rt, alloc, "/a?b=c", &fields);
    ServiceRequest::from_parts(request, payload_of(rt, alloc, b"hello"))
}

/// Whether a payload is a stream.
fn is_stream(payload: &Payload<Marks>) -> bool {
    match payload {
        Payload::Stream(_) => true,
        _ => false,
    }
}

/// The methods of the request and of its head, the paths of the request and of its target, the
/// query, and the numbers of header fields, of the wrapper and of the message.
fn printed_head(rt: &impl Abort, alloc: Global, service: &ServiceRequest<Site>) -> String {
    let (method, head_method) = (service.method().as_str(), service.head().method.as_str());
    let (path, target, query) = (service.path(), service.uri().path(), service.query_string());
    let fields = service.headers().len();
    let message_fields = HttpMessage::headers(service).len();
    format!(in alloc;
        "{method} {head_method} {path} {target} {query} {fields} {message_fields}"
    ).expect(rt, "memory")
}

/// The path, whether there are parameters, a peer, other data and a stream, and the host.
fn printed_parts(rt: &impl Abort, alloc: Global, service: &ServiceRequest<Site>) -> String {
    let (request, payload) = service.parts();
    let (path, is_stream) = (request.path(), is_stream(payload));
    let params = service.match_info().len();
    let has_peer = service.peer_addr().is_some();
    let has_data = service.extensions().is_some();
    let host = service.app_config().host.as_str();
    format!(in alloc; "{path} {params} {has_peer} {has_data} {is_stream} {host}").expect(
        rt, "memory",
    )
}

fn assert_read(rt: &impl Abort, alloc: Global, service: &ServiceRequest<Site>) {
    let text = printed_head(rt, alloc, service);
    assert_same(rt, text.as_str(), "GET GET /a /a b=c 2 2");
    let text = printed_parts(rt, alloc, service);
    assert_same(rt, text.as_str(), "/a 0 false false true localhost:8080");
    let is_same = service.version() == service.request().version();
    assert_same(rt, is_same, true);
}

fn assert_taken_apart(rt: &impl Abort, service: ServiceRequest<Site>) {
    let (request, payload) = service.into_parts();
    assert_same(rt, (request.path(), is_stream(&payload)), ("/a", true));
}

#[test]
fn the_parts_of_a_request_are_read(rt: HostRuntime) {
    let alloc = rt.alloc();
    let service = service(&rt, alloc);
    assert_read(&rt, alloc, &service);
    assert_taken_apart(&rt, service);
}

/// Compares the name and the value of the first cookie.
fn assert_first(rt: &impl Abort, cookies: &[CookiePair], expected: (&str, &str)) {
    match cookies.first() {
        Some(cookie) => assert_same(rt, (cookie.name(), cookie.value()), expected),
        None => assert_same(rt, ("no", "cookie"), expected),
    }
}

fn assert_host(rt: &impl Abort, alloc: Global, service: &mut ServiceRequest<Site>, host: &str) {
    let info = service.connection_info(alloc).expect(rt, "memory");
    assert_same(rt, info.host(), host);
}

fn assert_lists(rt: &impl Abort, alloc: Global, service: &mut ServiceRequest<Site>) {
    let cookies = service.cookies(alloc).expect(rt, "cookies");
    assert_first(rt, cookies, ("a", "1"));
    let cookies = service.cookies_raw(alloc).expect(rt, "cookies");
    assert_first(rt, cookies, ("a", "%31"));
}

fn assert_found(rt: &impl Abort, alloc: Global, service: &mut ServiceRequest<Site>) {
    let found = service.cookie(alloc, "a").expect(rt, "memory");
    assert_same(rt, found.is_some(), true);
    let found = service.cookie_raw(alloc, "b").expect(rt, "memory");
    assert_same(rt, found.is_none(), true);
}

#[test]
fn what_is_computed_of_a_request_is_read(rt: HostRuntime) {
    let alloc = rt.alloc();
    let mut service = service(&rt, alloc);
    assert_host(&rt, alloc, &mut service, "h");
    assert_lists(&rt, alloc, &mut service);
    assert_found(&rt, alloc, &mut service);
}

/// Puts a Host into the head, from which the connection information is computed.
fn set_host(rt: &impl Abort, alloc: Global, service: &mut ServiceRequest<Site>) {
    let value = HeaderValue::from_static("i");
    let headers = service.headers_mut().expect(rt, "memory");
    headers.insert(HOST, value).expect(rt, "room");
    assert_host(rt, alloc, service, "i");
}

fn set_extensions(rt: &impl Abort, service: &mut ServiceRequest<Site>) {
    *service.extensions_mut() = Some(NoData);
    assert_same(rt, service.extensions().is_some(), true);
}

fn add_container(rt: &impl Abort, alloc: Global, service: &mut ServiceRequest<Site>) {
    let layer = Rc::new(alloc, NoData).expect(rt, "memory");
    assert_same(rt, service.add_data_container(layer).is_ok(), true);
}

/// Takes the payload away, and puts another one there by the parts.
fn set_payloads(rt: &impl Abort, alloc: Global, service: &mut ServiceRequest<Site>) {
    service.set_payload(Payload::None);
    assert_same(rt, is_stream(service.parts().1), false);
    let (_, payload) = service.parts_mut();
    *payload = payload_of(rt, alloc, b"ab");
    assert_same(rt, is_stream(service.parts().1), true);
}

fn take_payload(rt: &impl Abort, service: &mut ServiceRequest<Site>) {
    assert_same(rt, is_stream(&service.take_payload()), true);
    assert_same(rt, is_stream(service.parts().1), false);
}

#[test]
fn the_parts_of_a_request_are_changed(rt: HostRuntime) {
    let alloc = rt.alloc();
    let mut service = service(&rt, alloc);
    set_host(&rt, alloc, &mut service);
    set_extensions(&rt, &mut service);
    add_container(&rt, alloc, &mut service);
    set_payloads(&rt, alloc, &mut service);
    take_payload(&rt, &mut service);
}

fn set_method(rt: &impl Abort, service: &mut ServiceRequest<Site>) {
    service.head_mut().expect(rt, "memory").method = Method::PUT;
    assert_same(rt, service.method().as_str(), "PUT");
}

#[test]
fn a_changed_head_is_not_that_of_a_duplicate(rt: HostRuntime) {
    let alloc = rt.alloc();
    let request: HttpRequest<Site> = request_of(&rt, alloc, "/", &[]);
    let copy = request.duplicate(alloc).expect(&rt, "memory");
    let mut service = ServiceRequest::from_request(request);
    set_method(&rt, &mut service);
    assert_same(&rt, copy.method().as_str(), "GET");
}

/// The bytes that a request gives at the first poll.
fn bytes_of(rt: &impl Abort, alloc: Global, service: &mut ServiceRequest<Site>) -> Bytes {
    let mut future = service.extract::<Bytes>(alloc).expect(rt, "memory");
    match future.poll(alloc) {
        Step::Ready(Ok(bytes)) => bytes,
        _ => panic!(rt; "no bytes at the first poll"),
    }
}

#[test]
fn an_argument_takes_the_payload(rt: HostRuntime) {
    let alloc = rt.alloc();
    let mut service = service(&rt, alloc);
    let whole = bytes_of(&rt, alloc, &mut service);
    assert_same(&rt, whole.as_slice(), b"hello".as_slice());
    let empty = bytes_of(&rt, alloc, &mut service);
    assert_same(&rt, empty.len(), 0);
}

/// Compares the path of the request, which stays, and the status of the response.
fn assert_answered(rt: &impl Abort, answered: ServiceResponse<Site, WholeBody>, status: u16) {
    let found = (answered.request().path(), answered.status().as_u16());
    assert_same(rt, found, ("/a", status));
}

fn answer_with_response(rt: &impl Abort, alloc: Global) {
    let response = HttpResponse::new(alloc, StatusCode::CREATED);
    assert_answered(rt, service(rt, alloc).into_response(response), 201);
}

fn answer_with_error(rt: &impl Abort, alloc: Global) {
    let error = Error::from(PayloadError::Overflow);
    let answered = service(rt, alloc).error_response(alloc, error);
    assert_answered(rt, answered.expect(rt, "memory"), 413);
}

#[test]
fn a_request_becomes_its_response(rt: HostRuntime) {
    answer_with_response(&rt, rt.alloc());
    answer_with_error(&rt, rt.alloc());
}
