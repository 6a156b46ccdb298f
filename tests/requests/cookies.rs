//! Cookies as they are read, printed and removed.
use crate::compare::{assert_holds, assert_same};
use httpdate::HttpDate;
use std::alloc::Global;
use std::process::Abort;
use web_request::cookies::{Cookie, CookieParseError, SameSite};
use web_request::{Duplicate, Fail, Text};

/// The attributes of a cookie, its date in seconds.
#[derive(Clone, Copy)]
struct Attributes {
    http_only: bool,
    same_site: Option<SameSite>,
    secure: Option<bool>,
    path: Option<&'static str>,
    domain: Option<&'static str>,
    max_age: Option<u64>,
    expires: Option<u64>,
}

const PLAIN: Attributes = Attributes {
    http_only: false,
    same_site: None,
    secure: None,
    path: None,
    domain: None,
    max_age: None,
    expires: None,
};

/// A text, the name, the value and the attributes of the cookie that it says, and what that prints.
type CookieRow = (
    &'static str,
    &'static str,
    &'static str,
    Attributes,
    &'static str,
);

/// Texts that are read as they are.
const RAW: &[CookieRow] = &[
    ("a=b", "a", "b", PLAIN, "a=b"),
    ("a=b=c", "a", "b=c", PLAIN, "a=b=c"),
    ("a=", "a", "", PLAIN, "a="),
    (
        "a=b; SameSite=None",
        "a",
        "b",
        Attributes {
            same_site: Some(SameSite::None),
            ..PLAIN
        },
        "a=b; SameSite=None; Secure",
    ),
    (
        "a=b; samesite=STRICT; Secure",
        "a",
        "b",
        Attributes {
            same_site: Some(SameSite::Strict),
            secure: Some(true),
            ..PLAIN
        },
        "a=b; SameSite=Strict; Secure",
    ),
    (
        "a=b; Domain=.",
        "a",
        "b",
        Attributes {
            domain: Some(""),
            ..PLAIN
        },
        "a=b; Domain=",
    ),
    ("a=b; Domain=", "a", "b", PLAIN, "a=b"),
    ("a=b; Max-Age=+5", "a", "b", PLAIN, "a=b"),
    ("a=b; Max-Age=", "a", "b", PLAIN, "a=b"),
    ("a=b; Max-Age=-", "a", "b", PLAIN, "a=b"),
    (
        "a=b; Max-Age=9223372036854775808",
        "a",
        "b",
        Attributes {
            max_age: Some(9_223_372_036_854_775_807),
            ..PLAIN
        },
        "a=b; Max-Age=9223372036854775807",
    ),
    (
        "a=b; expires=Sunday, 06-Nov-94 08:49:37 GMT",
        "a",
        "b",
        Attributes {
            expires: Some(784_111_777),
            ..PLAIN
        },
        "a=b; Expires=Sun, 06 Nov 1994 08:49:37 GMT",
    ),
    ("%61=%41%zz", "%61", "%41%zz", PLAIN, "%61=%41%zz"),
    ("%ff=a", "%ff", "a", PLAIN, "%ff=a"),
    (
        "a=b; HttpOnly=false",
        "a",
        "b",
        Attributes {
            http_only: true,
            ..PLAIN
        },
        "a=b; HttpOnly",
    ),
    (
        "a=b;Secure;Path=/;HttpOnly",
        "a",
        "b",
        Attributes {
            http_only: true,
            secure: Some(true),
            path: Some("/"),
            ..PLAIN
        },
        "a=b; HttpOnly; Secure; Path=/",
    ),
    (
        "a=b; PATH = /x ",
        "a",
        "b",
        Attributes {
            path: Some("/x"),
            ..PLAIN
        },
        "a=b; Path=/x",
    ),
    (
        "a\t=\tb\t;\tSecure\t",
        "a",
        "b",
        Attributes {
            secure: Some(true),
            ..PLAIN
        },
        "a=b; Secure",
    ),
    ("a=b;=c", "a", "b", PLAIN, "a=b"),
    ("a=b; SameSite", "a", "b", PLAIN, "a=b"),
    (
        "a=b; Domain=X.Y; domain=z",
        "a",
        "b",
        Attributes {
            domain: Some("z"),
            ..PLAIN
        },
        "a=b; Domain=z",
    ),
];

/// Texts that are read percent-decoded.
const ENCODED: &[CookieRow] = &[
    ("a=", "a", "", PLAIN, "a="),
    (
        "a=b; secure",
        "a",
        "b",
        Attributes {
            secure: Some(true),
            ..PLAIN
        },
        "a=b; Secure",
    ),
    (
        "a=b; HTTPONLY; SameSite=lax",
        "a",
        "b",
        Attributes {
            http_only: true,
            same_site: Some(SameSite::Lax),
            ..PLAIN
        },
        "a=b; HttpOnly; SameSite=Lax",
    ),
    (
        "a=b; SameSite=None",
        "a",
        "b",
        Attributes {
            same_site: Some(SameSite::None),
            ..PLAIN
        },
        "a=b; SameSite=None; Secure",
    ),
    ("a=b; Path", "a", "b", PLAIN, "a=b"),
    (
        "a=b; Domain=.x.y",
        "a",
        "b",
        Attributes {
            domain: Some("x.y"),
            ..PLAIN
        },
        "a=b; Domain=x.y",
    ),
    ("a=b; Max-Age=+5", "a", "b", PLAIN, "a=b"),
    ("a=b; Max-Age=", "a", "b", PLAIN, "a=b"),
    (
        "a=b; Max-Age=99999999999999999999",
        "a",
        "b",
        Attributes {
            max_age: Some(9_223_372_036_854_775_807),
            ..PLAIN
        },
        "a=b; Max-Age=9223372036854775807",
    ),
    (
        "a=b; Max-Age=7; Max-Age=x",
        "a",
        "b",
        Attributes {
            max_age: Some(7),
            ..PLAIN
        },
        "a=b; Max-Age=7",
    ),
    (
        "a=b; expires=Sunday, 06-Nov-94 08:49:37 GMT",
        "a",
        "b",
        Attributes {
            expires: Some(784_111_777),
            ..PLAIN
        },
        "a=b; Expires=Sun, 06 Nov 1994 08:49:37 GMT",
    ),
    (
        "a=b; unknown=c; ; Secure=x",
        "a",
        "b",
        Attributes {
            secure: Some(true),
            ..PLAIN
        },
        "a=b; Secure",
    ),
    ("a=\"b\"", "a", "\"b\"", PLAIN, "a=\"b\""),
    ("a=%41", "a", "A", PLAIN, "a=A"),
    ("a=%C3%AF", "a", "ï", PLAIN, "a=ï"),
    (
        "a=b; HttpOnly=false",
        "a",
        "b",
        Attributes {
            http_only: true,
            ..PLAIN
        },
        "a=b; HttpOnly",
    ),
    (
        "a=b; Expires=Tue, 14 Nov 2023 22:13:20 GMT; Max-Age=0",
        "a",
        "b",
        Attributes {
            max_age: Some(0),
            expires: Some(1_700_000_000),
            ..PLAIN
        },
        "a=b; Max-Age=0; Expires=Tue, 14 Nov 2023 22:13:20 GMT",
    ),
    (
        "a=b; Domain=X.Y; domain=z",
        "a",
        "b",
        Attributes {
            domain: Some("z"),
            ..PLAIN
        },
        "a=b; Domain=z",
    ),
];

/// Texts that are no cookies, and why.
const NOT_RAW: &[(&str, CookieParseError)] = &[
    ("a", CookieParseError::MissingPair),
    ("=b", CookieParseError::EmptyName),
    (";a=b", CookieParseError::MissingPair),
];

/// Texts that are no cookies percent-decoded, and why.
const NOT_ENCODED: &[(&str, CookieParseError)] = &[
    ("=b", CookieParseError::EmptyName),
    ("a=%ff", CookieParseError::Utf8),
    ("%ff=a", CookieParseError::Utf8),
];

/// A cookie, the moment of its removal in seconds, and the text of the removal.
const REMOVALS: &[(&str, u64, &str)] = &[
    (
        "id=v; HttpOnly; SameSite=Strict; Secure; Domain=x",
        31_536_000,
        "id=; HttpOnly; SameSite=Strict; Secure; Domain=x; Max-Age=0; \
        Expires=Thu, 01 Jan 1970 00:00:00 GMT",
    ),
    (
        "a=b; SameSite=None",
        253_402_300_799,
        "a=; SameSite=None; Secure; Max-Age=0; Expires=Thu, 31 Dec 9998 23:59:59 GMT",
    ),
];

fn assert_attributes(rt: &impl Abort, cookie: &Cookie, expected: &Attributes) {
    assert_same(rt, cookie.http_only(), expected.http_only);
    assert_same(rt, cookie.same_site(), expected.same_site);
    assert_same(rt, cookie.secure(), expected.secure);
    assert_same(rt, cookie.path(), expected.path);
    assert_same(rt, cookie.domain(), expected.domain);
    assert_same(rt, cookie.max_age(), expected.max_age);
    let expires = cookie.expires().map(|date| date.unix_secs());
    assert_same(rt, expires, expected.expires);
}

/// Compares a cookie and its duplicate with a row.
fn assert_cookie(rt: &impl Abort, alloc: Global, cookie: &Cookie, row: &CookieRow) {
    let (_, name, value, attributes, printed) = row;
    assert_same(rt, (cookie.name(), cookie.value()), (*name, *value));
    assert_attributes(rt, cookie, attributes);
    let text = cookie.to_string(alloc).expect(rt, "memory");
    assert_same(rt, text.as_str(), *printed);
    let copy = cookie.duplicate(alloc).expect(rt, "memory");
    assert_holds(rt, printed, copy == *cookie);
}

#[test]
fn cookies_are_read_and_printed(rt: HostRuntime) {
    let alloc = rt.alloc();
    for row in RAW {
        let cookie = Cookie::parse(alloc, row.0).expect(&rt, "a cookie");
        assert_cookie(&rt, alloc, &cookie, row);
    }
    for row in ENCODED {
        let cookie = Cookie::parse_encoded(alloc, row.0).expect(&rt, "a cookie");
        assert_cookie(&rt, alloc, &cookie, row);
    }
}

fn refusal_of(read: Result<Cookie, Fail<CookieParseError>>) -> Option<CookieParseError> {
    match read {
        Err(Fail::Of(error)) => Some(error),
        _ => None,
    }
}

#[test]
fn texts_that_are_no_cookies_are_refused(rt: HostRuntime) {
    let alloc = rt.alloc();
    for (text, error) in NOT_RAW {
        assert_same(&rt, refusal_of(Cookie::parse(alloc, text)), Some(*error));
    }
    for (text, error) in NOT_ENCODED {
        let read = Cookie::parse_encoded(alloc, text);
        assert_same(&rt, refusal_of(read), Some(*error));
    }
}

/// The texts of refusals.
const REFUSALS: &[(CookieParseError, &str)] = &[
    (CookieParseError::MissingPair, "cookie has no pair"),
    (CookieParseError::EmptyName, "cookie name is empty"),
    (CookieParseError::Utf8, "cookie is not UTF-8"),
];

#[test]
fn refusals_have_their_texts(rt: HostRuntime) {
    for (error, expected) in REFUSALS {
        let text = error.to_string(rt.alloc()).expect(&rt, "memory");
        assert_same(&rt, text.as_str(), *expected);
    }
}

fn date(rt: &impl Abort, seconds: u64) -> HttpDate {
    HttpDate::from_unix_secs(seconds).expect(rt, "a date")
}

#[test]
fn a_removal_ended_a_year_before(rt: HostRuntime) {
    let alloc = rt.alloc();
    for (text, moment, expected) in REMOVALS {
        let mut cookie = Cookie::parse(alloc, text).expect(&rt, "a cookie");
        cookie.make_removal(date(&rt, *moment));
        let removal = cookie.to_string(alloc).expect(&rt, "memory");
        assert_same(&rt, removal.as_str(), *expected);
    }
}

fn text(rt: &impl Abort, alloc: Global, text: &str) -> Text {
    Text::of(alloc, text).expect(rt, "memory")
}

/// The cookie `id` of the path `/`.
fn id_cookie(rt: &impl Abort, alloc: Global) -> Cookie {
    let mut cookie = Cookie::new(text(rt, alloc, "id"), text(rt, alloc, "1"));
    cookie.set_path(Some(text(rt, alloc, "/")));
    cookie
}

const ID: CookieRow = (
    "",
    "id",
    "1",
    Attributes {
        path: Some("/"),
        ..PLAIN
    },
    "id=1; Path=/",
);

#[test]
fn a_cookie_of_a_path_is_removed_there(rt: HostRuntime) {
    let alloc = rt.alloc();
    let mut cookie = id_cookie(&rt, alloc);
    assert_cookie(&rt, alloc, &cookie, &ID);
    cookie.make_removal(date(&rt, 1_700_000_000));
    let removal = cookie.to_string(alloc).expect(&rt, "memory");
    let expected = "id=; Path=/; Max-Age=0; Expires=Mon, 14 Nov 2022 22:13:20 GMT";
    assert_same(&rt, removal.as_str(), expected);
}

fn set_texts(rt: &impl Abort, alloc: Global, cookie: &mut Cookie) {
    cookie.set_value(text(rt, alloc, "2"));
    cookie.set_path(None);
    cookie.set_domain(Some(text(rt, alloc, "a.b")));
}

fn set_times(rt: &impl Abort, cookie: &mut Cookie) {
    cookie.set_max_age(Some(9));
    cookie.set_expires(Some(date(rt, 0)));
}

fn set_marks(cookie: &mut Cookie) {
    cookie.set_http_only(true);
    cookie.set_secure(Some(false));
    cookie.set_same_site(Some(SameSite::None));
}

const CHANGED: CookieRow = (
    "",
    "id",
    "2",
    Attributes {
        http_only: true,
        same_site: Some(SameSite::None),
        secure: Some(false),
        path: None,
        domain: Some("a.b"),
        max_age: Some(9),
        expires: Some(0),
    },
    "id=2; HttpOnly; SameSite=None; Domain=a.b; Max-Age=9; \
     Expires=Thu, 01 Jan 1970 00:00:00 GMT",
);

#[test]
fn the_parts_of_a_cookie_are_set(rt: HostRuntime) {
    let alloc = rt.alloc();
    let mut cookie = id_cookie(&rt, alloc);
    set_texts(&rt, alloc, &mut cookie);
    set_times(&rt, &mut cookie);
    set_marks(&mut cookie);
    assert_cookie(&rt, alloc, &cookie, &CHANGED);
}
