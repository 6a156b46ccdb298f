//! Records of requests.
use crate::compare::assert_same;
use crate::requests::{Site, config, head, pair};
use http::{Method, Version};
use std::alloc::Global;
use std::process::Abort;
use std::rc::Rc;
use web_request::{HttpRequest, HttpRequestPool, NoData, RequestHead, RequestParts};

/// A pool that keeps one record.
fn pool_of_one(rt: &impl Abort, alloc: Global) -> HttpRequestPool<Site> {
    let root = Rc::new(alloc, NoData).expect(rt, "memory");
    HttpRequestPool::with_capacity(alloc, root, config(rt, alloc), 1).expect(rt, "memory")
}

/// The parts of a request for this target, with something in each place.
fn parts(rt: &impl Abort, alloc: Global, target: &'static str) -> RequestParts<Site> {
    let pair = pair(rt, alloc, &("name", "value"));
    let layer = Rc::new(alloc, NoData).expect(rt, "memory");
    RequestParts {
        head: head(rt, alloc, target),
        params: vec![in alloc; pair].expect(rt, "memory"),
        layers: vec![in alloc; layer].expect(rt, "memory"),
        conn: Some(Rc::new(alloc, NoData).expect(rt, "memory")),
        local: Some(NoData),
    }
}

/// Starts a request for this target.
fn start_request(
    rt: &impl Abort,
    alloc: Global,
    pool: &mut HttpRequestPool<Site>,
    target: &'static str,
) -> HttpRequest<Site> {
    assert!(rt; pool.made() < 9);
    pool.start(alloc, parts(rt, alloc, target))
        .ok()
        .expect(rt, "memory")
}

/// Compares the serial number and the path of a request.
fn assert_request(rt: &impl Abort, request: &HttpRequest<Site>, serial: u64, path: &str) {
    assert_same(
        rt,
        (request.serial(), request.head().uri.path()),
        (serial, path),
    );
}

/// Compares whether a pool has room, the records that it keeps, and how many it made.
fn assert_pool(
    rt: &impl Abort,
    pool: &HttpRequestPool<Site>,
    is_available: bool,
    serials: &[u64],
    made: u64,
) {
    let found = (pool.is_available(), pool.serials(), pool.made());
    assert_same(rt, found, (is_available, serials, made));
}

#[test]
fn a_record_is_used_again_with_the_new_head(rt: HostRuntime) {
    let mut pool = pool_of_one(&rt, rt.alloc());
    let first = start_request(&rt, rt.alloc(), &mut pool, "/first");
    let second = start_request(&rt, rt.alloc(), &mut pool, "/second");
    assert_request(&rt, &first, 0, "/first");
    assert_request(&rt, &second, 1, "/second");
    assert_pool(&rt, &pool, true, &[], 2);
    pool.give_back(first);
    assert_pool(&rt, &pool, false, &[0], 2);
    pool.give_back(second);
    assert_pool(&rt, &pool, false, &[0], 2);
    let again = start_request(&rt, rt.alloc(), &mut pool, "/again");
    assert_request(&rt, &again, 0, "/again");
    assert_pool(&rt, &pool, true, &[], 2);
}

/// Whether two heads are the same, without headers and without a peer.
fn agrees(head: &RequestHead, copy: &RequestHead) -> bool {
    copy.uri == head.uri
        && copy.method == Method::GET
        && copy.version == Version::HTTP_11
        && copy.headers.is_empty()
        && copy.peer_addr.is_none()
}

#[test]
fn a_head_is_copied(rt: HostRuntime) {
    let head = head(&rt, rt.alloc(), "/bytes?a=b");
    let copy = head.clone().expect(&rt, "memory");
    assert_same(&rt, agrees(&head, &copy), true);
}
