//! Requests, exchanges and workers of any application. Each function makes one value, which the
//! tests hand on.
use bytes::Bytes;
use http::{Method, Version};
use http_header::HeaderMap;
use http_uri::Uri;
use std::alloc::Global;
use std::process::Abort;
use std::rc::Rc;
use web_body::{Marks, Payload};
use web_request::{
    App, AppConfig, HttpRequest, HttpRequestPool, Mark, Pair, RequestHead, RequestParts,
};
use web_worker::{Exchange, Worker};

fn config(rt: &impl Abort, alloc: Global) -> AppConfig {
    AppConfig::local(alloc).expect(rt, "memory")
}

/// The head of a POST request for this target, without headers.
pub(crate) fn head(rt: &impl Abort, alloc: Global, target: &'static str) -> RequestHead {
    RequestHead {
        uri: Uri::from_static(target).expect(rt, "a target"),
        method: Method::POST,
        version: Version::HTTP_11,
        headers: HeaderMap::new(alloc),
        peer_addr: None,
    }
}

/// A request of this head under this root layer, of a pool of its own.
pub(crate) fn request_of<A: App>(
    rt: &impl Abort,
    alloc: Global,
    root: A::Layer,
    head: RequestHead,
) -> HttpRequest<A> {
    let parts = RequestParts {
        head,
        params: Vec::new(alloc),
        layers: Vec::new(alloc),
        conn: None,
        local: None,
    };
    let root = Rc::new(alloc, root).expect(rt, "memory");
    let mut pool = HttpRequestPool::<A>::with_capacity(alloc, root, config(rt, alloc), 0).expect(
        rt, "memory",
    );
    assert!(rt; pool.made() < 9);
    pool.start(alloc, parts).ok().expect(rt, "memory")
}

/// A request for `/bytes` under this root layer, of a pool of its own.
pub(crate) fn request<A: App>(rt: &impl Abort, alloc: Global, root: A::Layer) -> HttpRequest<A> {
    request_of(rt, alloc, root, head(rt, alloc, "/bytes"))
}

/// An exchange without layers and data of its own.
pub(crate) fn exchange<A: App>(
    alloc: Global,
    head: RequestHead,
    params: Vec<Pair>,
    body: Payload<A::Source>,
) -> Exchange<A> {
    Exchange {
        head,
        params,
        layers: Vec::new(alloc),
        conn: None,
        local: None,
        body,
    }
}

/// A worker with this root layer that made no record yet.
pub(crate) fn worker<A: App>(rt: &impl Abort, alloc: Global, root: A::Layer) -> Worker<A> {
    let root = Rc::new(alloc, root).expect(rt, "memory");
    Worker::new(alloc, root, config(rt, alloc), 0).expect(rt, "memory")
}

/// `he`, an empty piece, a stall, `llo`.
pub(crate) fn hello(rt: &impl Abort, alloc: Global) -> Payload<Marks> {
    let marks = vec![in alloc;
        Mark::Piece(Bytes::from_static(b"he")),
        Mark::Piece(Bytes::new()),
        Mark::Stall,
        Mark::Piece(Bytes::from_static(b"llo")),
    ];
    Payload::Stream(Marks::new(marks.expect(rt, "memory")))
}

/// A stall, `ab`, then a fault.
pub(crate) fn failing(rt: &impl Abort, alloc: Global) -> Payload<Marks> {
    let marks = vec![in alloc;
        Mark::Stall,
        Mark::Piece(Bytes::from_static(b"ab")),
        Mark::Fault,
    ];
    Payload::Stream(Marks::new(marks.expect(rt, "memory")))
}
