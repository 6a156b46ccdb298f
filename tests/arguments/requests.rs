//! Requests of the tests' applications.
use http::{Method, Version};
use http_header::{CONTENT_LENGTH, CONTENT_TYPE, HeaderMap, HeaderName, HeaderValue};
use http_uri::Uri;
use std::alloc::Global;
use std::marker::PhantomData;
use std::process::Abort;
use std::rc::Rc;
use web_body::Marks;
use web_request::{
    App, AppConfig, AppLayer, Duplicate, Holds, HttpRequest, HttpRequestPool, NoMemory,
    RequestHead, RequestParts,
};

/// The Content-Type of JSON.
pub(crate) const JSON: Option<&[u8]> = Some(b"application/json");

/// The Content-Type of a form.
pub(crate) const FORM: Option<&[u8]> = Some(b"application/x-www-form-urlencoded");

/// The data of a request and of a connection: a number.
#[derive(Drop)]
pub(crate) struct Visits {
    pub(crate) count: u64,
}

impl Duplicate for Visits {
    fn duplicate(&self, _alloc: Global) -> Result<Visits, NoMemory> {
        Ok(Visits { count: self.count })
    }
}

impl Holds<Visits> for Visits {
    ghost use Rattle.std.specs.Prelude.{Some};

    ghost held = { λ visits. Some visits };

    fn held(&self) -> Option<&Visits> {
        Some(self)
    }
}

impl Holds<u64> for Visits {
    ghost use Rattle.std.specs.Prelude.{Some};

    ghost held = { λ visits. Some visits.count };

    fn held(&self) -> Option<&u64> {
        Some(&self.count)
    }
}

/// An application with layers of this type.
#[derive(Drop)]
pub(crate) struct Site<L> {
    layer: PhantomData<L>,
}

impl<L: AppLayer> App for Site<L> {
    type Layer = L;

    type Local = Visits;

    type Conn = Visits;

    type Source = Marks;
}

fn config(rt: &impl Abort, alloc: Global) -> AppConfig {
    AppConfig::local(alloc).expect(rt, "memory")
}

/// The head of a PUT request for this target, without header fields.
pub(crate) fn head(rt: &impl Abort, alloc: Global, target: &'static str) -> RequestHead {
    RequestHead {
        uri: Uri::from_static(target).expect(rt, "a target"),
        method: Method::PUT,
        version: Version::HTTP_11,
        headers: HeaderMap::new(alloc),
        peer_addr: None,
    }
}

/// Adds a header field.
pub(crate) fn add(
    rt: &impl Abort,
    alloc: Global,
    head: &mut RequestHead,
    name: HeaderName,
    value: &[u8],
) {
    let value = HeaderValue::from_bytes(alloc, value).expect(rt, "a value");
    head.headers.append(name, value).expect(rt, "room");
}

/// Adds a header field, where there is a value.
fn add_some(
    rt: &impl Abort,
    alloc: Global,
    head: &mut RequestHead,
    name: HeaderName,
    value: Option<&[u8]>,
) {
    if let Some(value) = value {
        add(rt, alloc, head, name, value);
    }
}

/// A request of these parts under this root layer, of a pool of its own.
pub(crate) fn started<L: AppLayer>(
    rt: &impl Abort,
    alloc: Global,
    root: L,
    parts: RequestParts<Site<L>>,
) -> HttpRequest<Site<L>> {
    let root = Rc::new(alloc, root).expect(rt, "memory");
    let mut pool = HttpRequestPool::with_capacity(alloc, root, config(rt, alloc), 0).expect(
        rt, "memory",
    );
    assert!(rt; pool.made() < 9);
    pool.start(alloc, parts).ok().expect(rt, "memory")
}

/// A request of this head, which has this root layer alone.
pub(crate) fn new_request<L: AppLayer>(
    rt: &impl Abort,
    alloc: Global,
    root: L,
    head: RequestHead,
) -> HttpRequest<Site<L>> {
    let parts = RequestParts {
        head,
        params: Vec::new(alloc),
        layers: Vec::new(alloc),
        conn: None,
        local: None,
    };
    started(rt, alloc, root, parts)
}

/// A request with this Content-Type and this Content-Length, where there are such.
pub(crate) fn body_request<L: AppLayer>(
    rt: &impl Abort,
    alloc: Global,
    root: L,
    fields: [Option<&[u8]>; 2],
) -> HttpRequest<Site<L>> {
    let mut head = head(rt, alloc, "/");
    add_some(rt, alloc, &mut head, CONTENT_TYPE, fields[0]);
    add_some(rt, alloc, &mut head, CONTENT_LENGTH, fields[1]);
    new_request(rt, alloc, root, head)
}
