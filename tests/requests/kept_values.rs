//! What is computed of a request once and then kept, and heads that are changed.
use crate::compare::assert_same;
use crate::requests::{Field, Site, request_of};
use http::Method;
use http_header::{HOST, HeaderValue};
use std::alloc::Global;
use std::process::Abort;
use std::rc::Rc;
use url::ParseError;
use web_request::{Fail, HttpRequest, NoData};

/// A target, a Host, and the URL or why there is none.
type UrlRow = (
    &'static str,
    &'static [Field],
    Result<&'static str, ParseError>,
);

const URLS: &[UrlRow] = &[
    (
        "/a?b=1",
        &[("host", b"example.com")],
        Ok("http://example.com/a?b=1"),
    ),
    ("/", &[("host", b"a b")], Err(ParseError::IdnaError)),
    ("http://h:8/x", &[], Ok("http://h:8/x")),
    ("h:80", &[], Ok("http://h/")),
    (
        "/a",
        &[("forwarded", b"proto=https;host=\"[::1]:4\"")],
        Ok("https://[::1]:4/a"),
    ),
];

/// Compares the URL of a request, or why it has none.
fn assert_url(
    rt: &impl Abort,
    alloc: Global,
    request: &mut HttpRequest<Site>,
    expected: Result<&str, ParseError>,
) {
    match request.full_url(alloc) {
        Ok(url) => assert_same(rt, Ok(url.as_str()), expected),
        Err(Fail::Of(error)) => assert_same(rt, Err(error), expected),
        Err(Fail::NoMemory) => assert_same(rt, true, false),
    }
}

#[test]
fn urls_are_rebuilt(rt: HostRuntime) {
    let alloc = rt.alloc();
    for (target, fields, expected) in URLS {
        let mut request = request_of(&rt, alloc, target, fields);
        assert_url(&rt, alloc, &mut request, *expected);
    }
}

/// Puts a Host into a head.
fn set_host(rt: &impl Abort, alloc: Global, request: &mut HttpRequest<Site>, host: &[u8]) {
    let value = HeaderValue::from_bytes(alloc, host).expect(rt, "a value");
    let head = request.head_mut().expect(rt, "memory");
    head.headers.insert(HOST, value).expect(rt, "room");
}

fn assert_host(rt: &impl Abort, alloc: Global, request: &mut HttpRequest<Site>, expected: &str) {
    let info = request.connection_info(alloc).expect(rt, "memory");
    assert_same(rt, info.host(), expected);
}

#[test]
fn connection_information_is_kept_from_the_first_call_on(rt: HostRuntime) {
    let alloc = rt.alloc();
    let mut request = request_of(&rt, alloc, "/", &[("host", b"a")]);
    assert_host(&rt, alloc, &mut request, "a");
    set_host(&rt, alloc, &mut request, b"b");
    assert_host(&rt, alloc, &mut request, "a");
    assert_url(&rt, alloc, &mut request, Ok("http://a/"));
    let mut copy = request.duplicate(alloc).expect(&rt, "memory");
    assert_host(&rt, alloc, &mut copy, "b");
}

#[test]
fn a_refused_url_keeps_connection_information(rt: HostRuntime) {
    let alloc = rt.alloc();
    let mut request = request_of(&rt, alloc, "/", &[("host", b"a b")]);
    assert_url(&rt, alloc, &mut request, Err(ParseError::IdnaError));
    set_host(&rt, alloc, &mut request, b"b");
    assert_host(&rt, alloc, &mut request, "a b");
}

fn set_method(rt: &impl Abort, request: &mut HttpRequest<Site>) {
    request.head_mut().expect(rt, "memory").method = Method::PUT;
    assert_same(rt, request.method().as_str(), "PUT");
}

#[test]
fn a_changed_head_is_not_that_of_a_duplicate(rt: HostRuntime) {
    let alloc = rt.alloc();
    let mut request: HttpRequest<Site> = request_of(&rt, alloc, "/", &[]);
    let copy = request.duplicate(alloc).expect(&rt, "memory");
    set_method(&rt, &mut request);
    assert_same(&rt, copy.method().as_str(), "GET");
}

#[test]
fn a_layer_is_added(rt: HostRuntime) {
    let alloc = rt.alloc();
    let mut request: HttpRequest<Site> = request_of(&rt, alloc, "/", &[]);
    let layer = Rc::new(alloc, NoData).expect(&rt, "memory");
    assert_same(&rt, request.add_layer(layer).is_ok(), true);
}
