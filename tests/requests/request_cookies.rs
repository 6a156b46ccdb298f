//! The cookies of requests.
use crate::compare::assert_same;
use crate::requests::{Site, add, head, request_with};
use http_header::{COOKIE, HeaderValue};
use std::alloc::Global;
use std::process::Abort;
use web_request::cookies::{Cookie, CookiePair, CookieParseError};
use web_request::{Fail, HttpRequest, RequestHead};

/// Values of the header Cookie, and the names and values of the cookies that they say as they are.
const RAW: &[(&[&[u8]], &str)] = &[
    (&[b" a = 1 ;b= 2 "], "a=1; b=2"),
    (&[b"\t"], ""),
    (&[b"e= ;a=1 ;a=1"], "e=; a=1; a=1"),
    (&[b"a=1"], "a=1"),
    (&[b"a=1; g=%C3%AF; =x; g=%C3%AF"], "a=1; g=%C3%AF; g=%C3%AF"),
    (&[b"%61=%ff"], "%61=%ff"),
    (&[b"%20=x; "], "%20=x"),
    (&[b"%3d=%3b; a=1; a=1; d"], "%3d=%3b; a=1; a=1"),
    (&[b"%20=x; %20=x; a=1"], "%20=x; %20=x; a=1"),
    (&[b"; j=a,b; =x; %3d=%3b"], "j=a,b; %3d=%3b"),
    (&[b"a=\"q\""], "a=\"q\""),
    (&[b"%61=%ff; a=1"], "%61=%ff; a=1"),
    (&[b"j=a,b; %61=%ff"], "j=a,b; %61=%ff"),
    (&[b"a=1; g=%C3%AF; %3d=%3b"], "a=1; g=%C3%AF; %3d=%3b"),
    (&[b"h=\xc3\xaf; a=\"q\"; "], "h=ï; a=\"q\""),
    (&[b"j=a,b;a=1"], "j=a,b; a=1"),
];

fn head_with(rt: &impl Abort, alloc: Global, values: &[&[u8]]) -> RequestHead {
    let mut head = head(rt, alloc, "/");
    for value in values {
        add(rt, alloc, &mut head, COOKIE, value);
    }
    head
}

fn request_with_cookies(rt: &impl Abort, alloc: Global, values: &[&[u8]]) -> HttpRequest<Site> {
    request_with(rt, alloc, head_with(rt, alloc, values), &[])
}

fn push(rt: &impl Abort, text: &mut String, more: &str) {
    text.push_str(more).expect(rt, "memory");
}

/// The names and values of cookies.
fn listed(rt: &impl Abort, alloc: Global, cookies: &[CookiePair]) -> String {
    let mut text = String::new(alloc);
    for cookie in cookies {
        if !text.is_empty() {
            push(rt, &mut text, "; ");
        }
        push(rt, &mut text, cookie.name());
        push(rt, &mut text, "=");
        push(rt, &mut text, cookie.value());
    }
    text
}

/// Compares a list of cookies, or that it is refused.
fn assert_listed(
    rt: &impl Abort,
    alloc: Global,
    read: Result<&[CookiePair], Fail<CookieParseError>>,
    expected: &str,
) {
    match read {
        Ok(cookies) => assert_same(rt, listed(rt, alloc, cookies).as_str(), expected),
        Err(Fail::Of(CookieParseError::Utf8)) => assert_same(rt, "refused", expected),
        Err(_) => panic!(rt; "another refusal"),
    }
}

fn assert_decoded(rt: &impl Abort, alloc: Global, request: &mut HttpRequest<Site>, expected: &str) {
    assert_listed(rt, alloc, request.cookies(alloc), expected);
}

fn assert_raw(rt: &impl Abort, alloc: Global, request: &mut HttpRequest<Site>, expected: &str) {
    assert_listed(rt, alloc, request.cookies_raw(alloc), expected);
}

#[test]
fn raw_cookies_are_read_as_they_are(rt: HostRuntime) {
    let alloc = rt.alloc();
    for (values, expected) in RAW {
        let mut request = request_with_cookies(&rt, alloc, values);
        assert_raw(&rt, alloc, &mut request, expected);
    }
}

/// Puts one value of the header Cookie in place of those that are there.
fn set_cookie(rt: &impl Abort, alloc: Global, request: &mut HttpRequest<Site>, value: &[u8]) {
    let value = HeaderValue::from_bytes(alloc, value).expect(rt, "a value");
    let head = request.head_mut().expect(rt, "memory");
    head.headers.insert(COOKIE, value).expect(rt, "room");
}

/// Compares the value of a cookie that was found.
fn assert_found(rt: &impl Abort, found: Option<Cookie>, expected: Option<&str>) {
    match &found {
        Some(cookie) => assert_same(rt, Some(cookie.value()), expected),
        None => assert_same(rt, None, expected),
    }
}

/// Looks for a cookie by its name, among the decoded ones and among those as they are.
fn assert_named(
    rt: &impl Abort,
    alloc: Global,
    request: &mut HttpRequest<Site>,
    name: &str,
    expected: (Option<&str>, Option<&str>),
) {
    let found = request.cookie(alloc, name).expect(rt, "memory");
    assert_found(rt, found, expected.0);
    let found = request.cookie_raw(alloc, name).expect(rt, "memory");
    assert_found(rt, found, expected.1);
}

#[test]
fn a_refused_list_is_not_kept_and_a_read_one_is(rt: HostRuntime) {
    let alloc = rt.alloc();
    let mut request = request_with_cookies(&rt, alloc, &[b"a=%31", b"\xff=1"]);
    assert_decoded(&rt, alloc, &mut request, "refused");
    assert_raw(&rt, alloc, &mut request, "refused");
    assert_named(&rt, alloc, &mut request, "a", (None, None));
    set_cookie(&rt, alloc, &mut request, b"a=%31; a=2");
    assert_decoded(&rt, alloc, &mut request, "a=1; a=2");
    set_cookie(&rt, alloc, &mut request, b"b=%32");
    assert_decoded(&rt, alloc, &mut request, "a=1; a=2");
    assert_raw(&rt, alloc, &mut request, "b=%32");
}

#[test]
fn the_first_cookie_of_a_name_is_found(rt: HostRuntime) {
    let alloc = rt.alloc();
    let mut request = request_with_cookies(&rt, alloc, &[b"a=%31; b=2; a=3"]);
    assert_named(&rt, alloc, &mut request, "a", (Some("1"), Some("%31")));
    assert_named(&rt, alloc, &mut request, "b", (Some("2"), Some("2")));
    assert_named(&rt, alloc, &mut request, "A", (None, None));
}
