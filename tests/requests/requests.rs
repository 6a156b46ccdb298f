//! Requests of the tests' application.
use bytes::Bytes;
use http::{Method, Version};
use http_header::{
    CONTENT_ENCODING, CONTENT_LENGTH, CONTENT_TYPE, HeaderMap, HeaderName, HeaderValue,
};
use http_uri::Uri;
use std::alloc::Global;
use std::process::Abort;
use std::rc::Rc;
use web_body::{Mark, Marks, Payload};
use web_request::{
    App, AppConfig, HttpRequest, HttpRequestPool, NoData, Pair, PlainApp, RequestHead,
    RequestParts, Source,
};

/// The application of the tests.
pub(crate) type Site = PlainApp<Marks>;

/// A name and a value of a header field.
pub(crate) type Field = (&'static str, &'static [u8]);

pub(crate) fn config(rt: &impl Abort, alloc: Global) -> AppConfig {
    AppConfig::local(alloc).expect(rt, "memory")
}

/// The head of a GET request for this target, without header fields.
pub(crate) fn head(rt: &impl Abort, alloc: Global, target: &'static str) -> RequestHead {
    RequestHead {
        uri: Uri::from_static(target).expect(rt, "a target"),
        method: Method::GET,
        version: Version::HTTP_11,
        headers: HeaderMap::new(alloc),
        peer_addr: None,
    }
}

/// Adds a header field.
pub(crate) fn add(
    rt: &impl Abort,
    alloc: Global,
    head: &mut RequestHead,
    name: HeaderName,
    value: &[u8],
) {
    let value = HeaderValue::from_bytes(alloc, value).expect(rt, "a value");
    head.headers.append(name, value).expect(rt, "room");
}

fn add_field(rt: &impl Abort, alloc: Global, head: &mut RequestHead, field: &Field) {
    let name = HeaderName::from_bytes(alloc, field.0.as_bytes()).expect(rt, "a name");
    add(rt, alloc, head, name, field.1);
}

/// The head of a GET request with these header fields.
pub(crate) fn head_of(
    rt: &impl Abort,
    alloc: Global,
    target: &'static str,
    fields: &[Field],
) -> RequestHead {
    let mut head = head(rt, alloc, target);
    for field in fields {
        add_field(rt, alloc, &mut head, field);
    }
    head
}

pub(crate) fn pair(rt: &impl Abort, alloc: Global, pair: &(&str, &str)) -> Pair {
    Pair::new(alloc, pair.0, pair.1).expect(rt, "memory")
}

/// A request of these parts under this root layer, of a pool of its own.
pub(crate) fn started<A: App>(
    rt: &impl Abort,
    alloc: Global,
    root: Rc<A::Layer>,
    parts: RequestParts<A>,
) -> HttpRequest<A> {
    let mut pool = HttpRequestPool::with_capacity(alloc, root, config(rt, alloc), 0).expect(
        rt, "memory",
    );
    assert!(rt; pool.made() < 9);
    pool.start(alloc, parts).ok().expect(rt, "memory")
}

/// A request of this head with these parameters.
pub(crate) fn request_with<S: Source>(
    rt: &impl Abort,
    alloc: Global,
    head: RequestHead,
    params: &[(&str, &str)],
) -> HttpRequest<PlainApp<S>> {
    let mut pairs = Vec::new(alloc);
    for param in params {
        pairs.push(pair(rt, alloc, param)).expect(rt, "memory");
    }
    let parts = RequestParts {
        head,
        params: pairs,
        layers: Vec::new(alloc),
        conn: None,
        local: None,
    };
    let root = Rc::new(alloc, NoData).expect(rt, "memory");
    started(rt, alloc, root, parts)
}

/// A request with these header fields.
pub(crate) fn request_of<S: Source>(
    rt: &impl Abort,
    alloc: Global,
    target: &'static str,
    fields: &[Field],
) -> HttpRequest<PlainApp<S>> {
    request_with(rt, alloc, head_of(rt, alloc, target, fields), &[])
}

/// A request without header fields.
pub(crate) fn new_request(
    rt: &impl Abort,
    alloc: Global,
    target: &'static str,
) -> HttpRequest<Site> {
    request_of(rt, alloc, target, &[])
}

/// Adds a header field, where there is a value.
fn add_some(
    rt: &impl Abort,
    alloc: Global,
    head: &mut RequestHead,
    name: HeaderName,
    value: Option<&[u8]>,
) {
    if let Some(value) = value {
        add(rt, alloc, head, name, value);
    }
}

/// A request with this Content-Type, Content-Length and Content-Encoding, where there are such.
pub(crate) fn body_request(
    rt: &impl Abort,
    alloc: Global,
    fields: &[Option<&[u8]>; 3],
) -> HttpRequest<Site> {
    let mut head = head(rt, alloc, "/");
    add_some(rt, alloc, &mut head, CONTENT_TYPE, fields[0]);
    add_some(rt, alloc, &mut head, CONTENT_LENGTH, fields[1]);
    add_some(rt, alloc, &mut head, CONTENT_ENCODING, fields[2]);
    request_with(rt, alloc, head, &[])
}

/// A body of one piece.
pub(crate) fn payload_of(rt: &impl Abort, alloc: Global, piece: &'static [u8]) -> Payload<Marks> {
    let marks = vec![in alloc; Mark::Piece(Bytes::from_static(piece))].expect(rt, "memory");
    Payload::Stream(Marks::new(marks))
}
