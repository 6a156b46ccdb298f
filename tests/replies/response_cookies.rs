//! The cookies of a response.
use crate::compare::{assert_holds, assert_same};
use http::StatusCode;
use http_header::{HeaderValue, SET_COOKIE};
use httpdate::HttpDate;
use std::alloc::Global;
use std::process::Abort;
use web_cookies::Cookie;
use web_reply::{HttpResponse, WholeBody};
use web_texts::{NoMemory, Text};

/// A response with these values of Set-Cookie, which are texts.
fn response_with(rt: &impl Abort, alloc: Global, values: &[&[u8]]) -> HttpResponse<WholeBody> {
    let mut reply = HttpResponse::new(alloc, StatusCode::OK);
    for bytes in values {
        let value = HeaderValue::from_bytes(alloc, bytes)
            .ok()
            .expect(rt, "a value");
        let added = reply.headers_mut().append(SET_COOKIE, value);
        assert_holds(rt, "the value is added", added.is_ok());
    }
    reply
}

/// Compares the values of Set-Cookie.
fn assert_values(rt: &impl Abort, reply: &HttpResponse<WholeBody>, expected: &[&[u8]]) {
    let mut index = 0;
    for value in reply.headers().get_all(SET_COOKIE) {
        assert_holds(rt, "a value is left", index < expected.len());
        if index < expected.len() {
            assert_same(rt, value.as_bytes(), expected[index]);
            index += 1;
        }
    }
    assert_same(rt, index, expected.len());
}

/// Values of Set-Cookie, a name, how many cookies of that name there are, and the values without
/// them.
const DELETIONS: &[(&[&[u8]], &str, usize, &[&[u8]])] = &[
    (&[REMOVAL], "id", 1, &[]),
    (&[REMOVAL], "x", 0, &[REMOVAL]),
    (&[REMOVAL], "", 0, &[REMOVAL]),
    (
        &[b"a=1", b"\xff", b"b=2"],
        "id",
        0,
        &[b"a=1", b"\xff", b"b=2"],
    ),
    (&[b"a=1", b"\xff", b"b=2"], "b", 1, &[b"a=1", b"\xff"]),
    (
        &[b"a=1", b"\xff", b"b=2"],
        "a ",
        0,
        &[b"a=1", b"\xff", b"b=2"],
    ),
    (
        &[b"a=1", b"%61=2", b"b=3", b"a"],
        "id",
        0,
        &[b"a=1", b"%61=2", b"b=3", b"a"],
    ),
    (&[b"a=1", b"%61=2", b"b=3", b"a"], "a", 2, &[b"b=3", b"a"]),
    (&[], "a ", 0, &[]),
    (
        &[b"a=1; Path=/", b"x", b"a=%ff", b"b=%41", b"=c"],
        "",
        0,
        &[b"a=1; Path=/", b"x", b"a=%ff", b"b=%41", b"=c"],
    ),
    (&[b"a%20=1", b"a =2"], "b", 0, &[b"a%20=1", b"a =2"]),
    (&[b"a%20=1", b"a =2"], "a ", 1, &[b"a =2"]),
];

/// Deletes the cookies of a name.
fn assert_deletion(
    rt: &impl Abort,
    alloc: Global,
    values: &[&[u8]],
    name: &str,
    count: usize,
    left: &[&[u8]],
) {
    let mut reply = response_with(rt, alloc, values);
    let found = reply.del_cookie(alloc, name).expect(rt, "memory");
    assert_same(rt, found, count);
    assert_values(rt, &reply, left);
}

/// Values of Set-Cookie, and the cookies that they say.
const COOKIES: &[(&[&[u8]], &[(&str, &str)])] = &[
    (&[b"a=1", b"\xff", b"b=2"], &[("a", "1")]),
    (
        &[b"a=1", b"%61=2", b"b=3", b"a"],
        &[("a", "1"), ("a", "2"), ("b", "3")],
    ),
    (&[b"a%20=1", b"a =2"], &[("a ", "1"), ("a", "2")]),
    (&[], &[]),
];

/// Compares the next item of the cookies, which is `None` at the end.
fn assert_item(
    rt: &impl Abort,
    item: Option<Result<Cookie, NoMemory>>,
    expected: Option<&(&str, &str)>,
) {
    match (item, expected) {
        (Some(Ok(cookie)), Some((name, value))) => {
            assert_same(rt, cookie.name(), *name);
            assert_same(rt, cookie.value(), *value);
        }
        (None, None) => {}
        _ => panic!(rt; "another number of cookies"),
    }
}

/// Compares the cookies that values say.
fn assert_cookies(rt: &impl Abort, alloc: Global, values: &[&[u8]], expected: &[(&str, &str)]) {
    let reply = response_with(rt, alloc, values);
    let mut cookies = reply.cookies(alloc);
    for pair in expected {
        assert_item(rt, cookies.next(), Some(pair));
    }
    assert_item(rt, cookies.next(), None);
    assert_item(rt, cookies.next(), None);
}

/// What removes the cookie `id` of the path `/` at 1,700,000,000 seconds.
const REMOVAL: &[u8] = b"id=; Path=/; Max-Age=0; Expires=Mon, 14 Nov 2022 22:13:20 GMT";

fn text(rt: &impl Abort, alloc: Global, text: &str) -> Text {
    Text::of(alloc, text).expect(rt, "memory")
}

/// The cookie `id` of the path `/`.
fn id_cookie(rt: &impl Abort, alloc: Global) -> Cookie {
    let mut cookie = Cookie::new(text(rt, alloc, "id"), text(rt, alloc, "7"));
    cookie.set_path(Some(text(rt, alloc, "/")));
    cookie
}

/// Sets the cookie and its removal.
fn set_and_remove(rt: &impl Abort, alloc: Global) {
    let cookie = id_cookie(rt, alloc);
    let moment = HttpDate::from_unix_secs(1_700_000_000)
        .ok()
        .expect(rt, "a moment");
    let mut reply = HttpResponse::new(alloc, StatusCode::OK);
    let added = reply.add_cookie(alloc, &cookie);
    assert_holds(rt, "the cookie is added", added.is_ok());
    let removed = reply.add_removal_cookie(alloc, &cookie, moment);
    assert_holds(rt, "its removal is added", removed.is_ok());
    assert_values(rt, &reply, &[b"id=7; Path=/", REMOVAL]);
}

/// A cookie whose text may stand in no header.
fn refuse_cookie(rt: &impl Abort, alloc: Global) {
    let mut cookie = id_cookie(rt, alloc);
    cookie.set_value(text(rt, alloc, "\n"));
    let mut reply = response_with(rt, alloc, &[b"a=1"]);
    let added = reply.add_cookie(alloc, &cookie);
    assert_holds(rt, "the cookie is refused", added.is_err());
    assert_values(rt, &reply, &[b"a=1"]);
}

#[test]
fn cookies_of_a_name_are_deleted(rt: HostRuntime) {
    for (values, name, count, left) in DELETIONS {
        assert_deletion(&rt, rt.alloc(), values, name, *count, left);
    }
}

#[test]
fn cookies_end_at_bad_text(rt: HostRuntime) {
    for (values, expected) in COOKIES {
        assert_cookies(&rt, rt.alloc(), values, expected);
    }
}

#[test]
fn cookies_are_set_and_removed(rt: HostRuntime) {
    set_and_remove(&rt, rt.alloc());
    refuse_cookie(&rt, rt.alloc());
}
