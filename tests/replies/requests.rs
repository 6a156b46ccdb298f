//! A request of the tests' application.
use http::{Method, Version};
use http_header::{HeaderMap, HeaderValue};
use http_uri::Uri;
use std::alloc::Global;
use std::process::Abort;
use std::rc::Rc;
use web_body::Marks;
use web_request::{
    AppConfig, HttpRequest, HttpRequestPool, NoData, PlainApp, RequestHead, RequestParts,
};

/// The application of the tests.
pub(crate) type Site = PlainApp<Marks>;

fn pool(rt: &impl Abort, alloc: Global) -> HttpRequestPool<Site> {
    let config = AppConfig::local(alloc).expect(rt, "memory");
    let root = Rc::new(alloc, NoData).expect(rt, "memory");
    HttpRequestPool::with_capacity(alloc, root, config, 0).expect(rt, "memory")
}

/// A GET for this target, of a pool of its own.
pub(crate) fn new_request(
    rt: &impl Abort,
    alloc: Global,
    target: &'static str,
) -> HttpRequest<Site> {
    request_with(rt, alloc, Method::GET, target, HeaderMap::new(alloc))
}

/// A request of this method, target and headers, of a pool of its own.
pub(crate) fn request_with(
    rt: &impl Abort,
    alloc: Global,
    method: Method,
    target: &'static str,
    headers: HeaderMap<HeaderValue>,
) -> HttpRequest<Site> {
    let parts = RequestParts {
        head: RequestHead {
            uri: Uri::from_static(target).expect(rt, "a target"),
            method,
            version: Version::HTTP_11,
            headers,
            peer_addr: None,
        },
        params: Vec::new(alloc),
        layers: Vec::new(alloc),
        conn: None,
        local: None,
    };
    let mut pool = pool(rt, alloc);
    assert!(rt; pool.made() < 9);
    pool.start(alloc, parts).ok().expect(rt, "memory")
}
