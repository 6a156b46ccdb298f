//! The texts of requests for logs.
use crate::compare::assert_same;
use crate::requests::{Field, Site, head_of, request_with};
use std::alloc::Global;
use std::process::Abort;
use web_body::Payload;
use web_request::HttpRequest;
use web_service::ServiceRequest;

const FIELDS: &[Field] = &[
    ("b", b"x\xff\t"),
    ("b", b"2"),
    ("a", b"1"),
    ("cookie", b"secret"),
    ("authorization", b"s"),
    ("proxy-authorization", b"s"),
];

const PARAMS: &[(&str, &str)] = &[("k", "v"), ("k", "")];

/// What follows the lines of the target and of the query.
const BEHIND: &str = "  params: k=v\n  params: k=\n  headers:\n    a: 1\n    \
    authorization: *redacted*\n    b: x\\xff\t\n    b: 2\n    cookie: *redacted*\n    \
    proxy-authorization: *redacted*\n";

/// Targets, and the lines of the target and of the query without the name of the type.
const TARGETS: &[(&str, &str)] = &[
    ("/a?b=1", " HTTP/1.1 GET:/a\n  query: ?b=1\n"),
    ("*", " HTTP/1.1 GET:*\n"),
    ("h:80", " HTTP/1.1 GET:\n"),
    ("/ï", " HTTP/1.1 GET:/ï\n"),
    ("//x", " HTTP/1.1 GET://x\n"),
];

fn request_for(rt: &impl Abort, alloc: Global, target: &'static str) -> HttpRequest<Site> {
    request_with(rt, alloc, head_of(rt, alloc, target, FIELDS), PARAMS)
}

/// Compares a text with those of a type and a target.
fn assert_text(rt: &impl Abort, alloc: Global, found: &str, kind: &str, lines: &str) {
    let expected = format!(in alloc; "{kind}{lines}{BEHIND}").expect(rt, "memory");
    assert_same(rt, found, expected.as_str());
}

#[test]
fn requests_are_described_without_their_secrets(rt: HostRuntime) {
    let alloc = rt.alloc();
    for (target, lines) in TARGETS {
        let request = request_for(&rt, alloc, target);
        let text = request.describe(alloc).expect(&rt, "memory");
        assert_text(&rt, alloc, text.as_str(), "HttpRequest", lines);
        let service = ServiceRequest::from_parts(request, Payload::None);
        let text = service.describe(alloc).expect(&rt, "memory");
        assert_text(&rt, alloc, text.as_str(), "ServiceRequest", lines);
    }
}
