//! The parts of requests, and duplicates of requests.
use crate::compare::assert_same;
use crate::layered_requests::{Layered, Visits, visited_request};
use crate::requests::head;
use std::alloc::Global;
use std::process::Abort;
use web_request::{Duplicate, HttpRequest, ReqData};

/// A target, its path and its query.
type TargetRow = (&'static str, &'static str, &'static str);

const TARGETS: &[TargetRow] = &[
    ("/", "/", ""),
    ("/a?b=c", "/a", "b=c"),
    ("/a?", "/a", ""),
    ("/a?b?c", "/a", "b?c"),
    ("/a#f", "/a", ""),
    ("/ï", "/ï", ""),
    ("*", "*", ""),
    ("http://example.com?a=%20", "/", "a=%20"),
    ("example.com:80", "", ""),
];

fn assert_target(rt: &impl Abort, alloc: Global, row: &TargetRow) {
    let request = visited_request(rt, alloc, head(rt, alloc, row.0), None, None);
    let is_that_of_head = *request.uri() == request.head().uri;
    let found = (request.path(), request.query_string(), is_that_of_head);
    assert_same(rt, found, (row.1, row.2, true));
}

#[test]
fn a_request_has_the_parts_of_its_target(rt: HostRuntime) {
    for row in TARGETS {
        assert_target(&rt, rt.alloc(), row);
    }
}

/// What a request says beside its target: its method and version, the host of its application,
/// whether it has a peer and data, and the number of its connection.
fn printed(rt: &impl Abort, alloc: Global, request: &HttpRequest<Layered>) -> String {
    let method = request.method().as_str();
    let version = request.version();
    let host = request.app_config().host.as_str();
    let has_peer = request.peer_addr().is_some();
    let has_data = request.extensions().is_some();
    let visits = request.conn_data::<u32>().copied();
    format!(in alloc; "{method} {version:?} {host} {has_peer} {has_data} {visits:?}").expect(
        rt, "memory",
    )
}

#[test]
fn a_request_has_the_parts_of_its_head(rt: HostRuntime) {
    let alloc = rt.alloc();
    let request = visited_request(&rt, alloc, head(&rt, alloc, "/"), Some(3), None);
    let text = printed(&rt, alloc, &request);
    let expected = "GET HTTP/1.1 localhost:8080 false false Some(3)";
    assert_same(&rt, text.as_str(), expected);
}

/// The number of a request.
fn count_of(request: &HttpRequest<Layered>) -> Option<u32> {
    match request.extensions() {
        Some(visits) => Some(visits.count),
        None => None,
    }
}

fn set_count(request: &mut HttpRequest<Layered>, count: Option<u32>) {
    *request.extensions_mut() = count.map(|count| Visits { count });
}

/// Compares the number of a duplicate and its other parts, which stay.
fn assert_copy(rt: &impl Abort, copy: &HttpRequest<Layered>) {
    let numbers = (count_of(copy), copy.conn_data::<u32>().copied());
    assert_same(rt, numbers, (Some(4), Some(3)));
    let parts = (copy.path(), copy.query_string(), copy.serial());
    assert_same(rt, parts, ("/a", "b", 0));
}

#[test]
fn a_duplicate_is_apart(rt: HostRuntime) {
    let alloc = rt.alloc();
    let head = head(&rt, alloc, "/a?b");
    let mut request = visited_request(&rt, alloc, head, Some(3), Some(4));
    let copy = request.duplicate(alloc).expect(&rt, "memory");
    set_count(&mut request, Some(5));
    assert_same(&rt, count_of(&request), Some(5));
    assert_copy(&rt, &copy);
    set_count(&mut request, None);
    assert_same(&rt, count_of(&request), None);
    assert_copy(&rt, &copy);
}

#[test]
fn data_of_a_request_is_copied(rt: HostRuntime) {
    let data = ReqData::new(Visits { count: 7 });
    let copy = data.duplicate(rt.alloc()).expect(&rt, "memory");
    assert_same(&rt, (copy.count, data.into_inner().count), (7, 7));
}
