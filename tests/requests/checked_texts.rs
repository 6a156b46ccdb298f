//! Cookies, directives and parameters that come only where what they print reads back as them.
use crate::compare::assert_holds;
use std::alloc::Global;
use std::process::Abort;
use web_cookies::Cookie;
use web_entities::DispositionParam;
use web_headers::CacheDirective;
use web_texts::{Fail, InvalidHeaderValue, Text};

/// Names and values, and whether a cookie of them reads back.
const COOKIES: [(&str, &str, bool); 10] = [
    ("id", "1", true),
    ("id", "", true),
    ("id", "a=b, \"c\"", true),
    ("i d", "a b", true),
    ("", "1", false),
    ("i=d", "1", false),
    ("id", "1; Domain=a.b", false),
    ("id;", "1", false),
    ("id", " 1", false),
    ("id", "1\t", false),
];

/// Names and arguments of extensions, and whether a directive of them reads back.
const EXTENSIONS: [(&str, Option<&str>, bool); 15] = [
    ("immutable", None, true),
    ("community", Some("UCI"), true),
    ("community", Some("a b=\"c"), true),
    ("community", Some("\"a\""), false),
    ("community", Some("a \"b\" c"), true),
    ("No-Store", None, true),
    ("no-store", None, false),
    ("no-store", Some("1"), true),
    ("max-age", Some("5"), false),
    ("", None, false),
    ("a=b", None, false),
    ("a", Some(""), false),
    ("a", Some("b, no-store"), false),
    ("a", Some("b "), false),
    ("a", Some("b\u{e9}"), false),
];

/// Names of fields, and whether a parameter of them reads back.
const NAMES: [(&str, bool); 9] = [
    ("file", true),
    ("a b=\"c\"", true),
    ("\u{e9}", true),
    ("", false),
    ("a; filename=b", false),
    ("a;", false),
    ("\"a\"", false),
    (" a", false),
    ("a\t", false),
];

fn text(rt: &impl Abort, alloc: Global, text: &str) -> Text {
    Text::of(alloc, text).expect(rt, "memory")
}

/// Whether it came. A failed allocation ends the test.
fn came<T: Drop>(rt: &impl Abort, made: Result<T, Fail<InvalidHeaderValue>>) -> bool {
    match made {
        Ok(_) => true,
        Err(Fail::Of(InvalidHeaderValue)) => false,
        Err(Fail::NoMemory) => panic!(rt; "memory"),
    }
}

#[test]
fn a_cookie_comes_where_it_reads_back(rt: HostRuntime) {
    for (name, value, reads_back) in &COOKIES {
        let made = came(&rt, Cookie::checked(rt.alloc(), name, value));
        assert_holds(&rt, value, made == *reads_back);
    }
}

#[test]
fn an_extension_comes_where_it_reads_back(rt: HostRuntime) {
    let alloc = rt.alloc();
    for (name, argument, reads_back) in &EXTENSIONS {
        let argument = match argument {
            Some(argument) => Some(text(&rt, alloc, argument)),
            None => None,
        };
        let made = CacheDirective::checked_extension(alloc, text(&rt, alloc, name), argument);
        assert_holds(&rt, name, came(&rt, made) == *reads_back);
    }
}

#[test]
fn a_name_comes_where_it_reads_back(rt: HostRuntime) {
    for (name, reads_back) in &NAMES {
        let made = came(&rt, DispositionParam::checked_name(rt.alloc(), name));
        assert_holds(&rt, name, made == *reads_back);
    }
}
