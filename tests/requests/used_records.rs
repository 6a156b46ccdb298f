//! Records that are used again: what is read of them, and which ones a pool keeps.
use crate::compare::{assert_holds, assert_same};
use crate::requests::{Field, config, head_of};
use bytes::Bytes;
use http::Version;
use http_header::{AUTHORIZATION, HeaderValue};
use std::alloc::Global;
use std::process::Abort;
use std::rc::Rc;
use web_body::Marks;
use web_request::{
    App, AppLayer, Duplicate, Holds, HttpRequest, HttpRequestPool, NoMemory, Pair, RequestHead,
    RequestParts,
};

/// A number that a layer, a connection or a request has.
#[derive(Drop)]
struct Visits {
    count: u64,
}

impl AppLayer for Visits {}

impl Duplicate for Visits {
    fn duplicate(&self, _alloc: Global) -> Result<Visits, NoMemory> {
        Ok(Visits { count: self.count })
    }
}

impl Holds<u64> for Visits {
    ghost use Rattle.std.specs.Prelude.{Some};

    ghost held = { λ visits. Some visits.count };

    fn held(&self) -> Option<&u64> {
        Some(&self.count)
    }
}

/// An application whose layers, connections and requests have a number.
struct Visited;

impl App for Visited {
    type Layer = Visits;

    type Local = Visits;

    type Conn = Visits;

    type Source = Marks;
}

/// The fields of the earlier request of a record.
const EARLIER: &[Field] = &[
    ("host", b"earlier.example"),
    ("cookie", b"a=1; b=2"),
    ("forwarded", b"for=1.2.3.4;proto=https"),
];

/// The fields of its later request.
const LATER: &[Field] = &[("host", b"later.example")];

fn shared(rt: &impl Abort, alloc: Global, count: u64) -> Rc<Visits> {
    Rc::new(alloc, Visits { count }).expect(rt, "memory")
}

/// A pool that keeps one record, whose root layer has the number 1.
fn new_pool(rt: &impl Abort, alloc: Global) -> HttpRequestPool<Visited> {
    let root = shared(rt, alloc, 1);
    HttpRequestPool::with_capacity(alloc, root, config(rt, alloc), 1).expect(rt, "memory")
}

/// A request of the pool.
fn started(
    rt: &impl Abort,
    alloc: Global,
    pool: &mut HttpRequestPool<Visited>,
    parts: RequestParts<Visited>,
) -> HttpRequest<Visited> {
    assert!(rt; pool.made() < 9);
    pool.start(alloc, parts).ok().expect(rt, "memory")
}

/// A request of the pool that has a parameter, a layer, and data of its own and of its connection,
/// and of which the connection information and the cookies were read.
fn earlier_request(
    rt: &impl Abort,
    alloc: Global,
    pool: &mut HttpRequestPool<Visited>,
) -> HttpRequest<Visited> {
    let param = Pair::new(alloc, "id", "7").expect(rt, "memory");
    let parts = RequestParts {
        head: head_of(rt, alloc, "/earlier?a=1", EARLIER),
        params: vec![in alloc; param].expect(rt, "memory"),
        layers: vec![in alloc; shared(rt, alloc, 2)].expect(rt, "memory"),
        conn: Some(shared(rt, alloc, 3)),
        local: Some(Visits { count: 4 }),
    };
    let mut request = started(rt, alloc, pool, parts);
    let info = request.connection_info(alloc).expect(rt, "memory");
    assert_same(rt, info.scheme(), "https");
    let cookies = request.cookies(alloc).ok().expect(rt, "cookies");
    assert_same(rt, cookies.len(), 2);
    request
}

/// A request of the pool that has nothing but its head.
fn request_of(
    rt: &impl Abort,
    alloc: Global,
    pool: &mut HttpRequestPool<Visited>,
    head: RequestHead,
) -> HttpRequest<Visited> {
    let parts = RequestParts {
        head,
        params: Vec::new(alloc),
        layers: Vec::new(alloc),
        conn: None,
        local: None,
    };
    started(rt, alloc, pool, parts)
}

fn later_request(
    rt: &impl Abort,
    alloc: Global,
    pool: &mut HttpRequestPool<Visited>,
) -> HttpRequest<Visited> {
    request_of(rt, alloc, pool, head_of(rt, alloc, "/later", LATER))
}

/// A request of the pool whose Authorization has bytes that nothing else shares, and these bytes.
fn authorized_request(
    rt: &impl Abort,
    alloc: Global,
    pool: &mut HttpRequestPool<Visited>,
) -> (HttpRequest<Visited>, Bytes) {
    let secret = Bytes::copy_from_slice(alloc, b"Basic YTpi").expect(rt, "memory");
    let value = HeaderValue::from_shared(secret.clone().expect(rt, "memory"));
    let value = value.ok().expect(rt, "a value");
    let mut head = head_of(rt, alloc, "/later", LATER);
    head.headers.append(AUTHORIZATION, value).expect(rt, "room");
    (request_of(rt, alloc, pool, head), secret)
}

/// Two requests of the pool, which had none.
fn first_requests(
    rt: &impl Abort,
    alloc: Global,
    pool: &mut HttpRequestPool<Visited>,
) -> (HttpRequest<Visited>, HttpRequest<Visited>) {
    let first = later_request(rt, alloc, pool);
    let second = later_request(rt, alloc, pool);
    assert_same(rt, (first.serial(), second.serial()), (0, 1));
    (first, second)
}

/// Compares what is read of the parts of two requests.
fn assert_same_parts(
    rt: &impl Abort,
    request: &HttpRequest<Visited>,
    expected: &HttpRequest<Visited>,
) {
    assert_same(rt, request.method(), expected.method());
    assert_same(rt, request.version(), Version::HTTP_11);
    assert_same(rt, request.path(), expected.path());
    assert_same(rt, request.query_string(), expected.query_string());
    assert_same(rt, request.headers().len(), expected.headers().len());
    assert_same(rt, request.peer_addr(), expected.peer_addr());
    assert_same(rt, request.match_info().len(), expected.match_info().len());
    assert_same(rt, request.app_data::<u64>(), expected.app_data::<u64>());
    assert_same(rt, request.conn_data::<u64>(), expected.conn_data::<u64>());
    assert_same(
        rt,
        request.extensions().is_none(),
        expected.extensions().is_none(),
    );
    assert_same(
        rt,
        request.app_config().host.as_str(),
        expected.app_config().host.as_str(),
    );
}

/// Compares what is computed of two requests.
fn assert_same_computed(
    rt: &impl Abort,
    alloc: Global,
    request: &mut HttpRequest<Visited>,
    expected: &mut HttpRequest<Visited>,
) {
    let info = request.connection_info(alloc).expect(rt, "memory");
    let wanted = expected.connection_info(alloc).expect(rt, "memory");
    assert_same(rt, info.host(), wanted.host());
    assert_same(rt, info.scheme(), wanted.scheme());
    assert_same(rt, info.peer_addr(), wanted.peer_addr());
    assert_same(rt, info.realip_remote_addr(), wanted.realip_remote_addr());
    let cookies = request.cookies(alloc).ok().expect(rt, "cookies");
    assert_same(rt, cookies.len(), 0);
    let url = request.full_url(alloc).ok().expect(rt, "a URL");
    let wanted = expected.full_url(alloc).ok().expect(rt, "a URL");
    assert_same(rt, url.as_str(), wanted.as_str());
}

#[test]
fn a_used_record_reads_as_a_new_one(rt: HostRuntime) {
    let alloc = rt.alloc();
    let mut pool = new_pool(&rt, alloc);
    let earlier = earlier_request(&rt, alloc, &mut pool);
    pool.give_back(earlier);
    let mut later = later_request(&rt, alloc, &mut pool);
    assert_same(&rt, later.serial(), 0);
    let mut new = later_request(&rt, alloc, &mut pool);
    assert_same(&rt, new.serial(), 1);
    assert_same_parts(&rt, &later, &new);
    assert_same_computed(&rt, alloc, &mut later, &mut new);
    assert_same(&rt, later.app_data::<u64>(), Some(&1));
}

#[test]
fn a_record_that_is_kept_has_no_header(rt: HostRuntime) {
    let alloc = rt.alloc();
    let mut pool = new_pool(&rt, alloc);
    let (request, secret) = authorized_request(&rt, alloc, &mut pool);
    assert_holds(&rt, "a header shares the bytes", !secret.is_unique());
    pool.give_back(request);
    assert_same(&rt, pool.serials(), &[0]);
    assert_holds(&rt, "nothing shares the bytes", secret.is_unique());
}

#[test]
fn a_head_that_a_duplicate_shares_goes_with_the_duplicate(rt: HostRuntime) {
    let alloc = rt.alloc();
    let mut pool = new_pool(&rt, alloc);
    let (request, secret) = authorized_request(&rt, alloc, &mut pool);
    let copy = request.duplicate(alloc).expect(&rt, "memory");
    pool.give_back(request);
    assert_same(&rt, pool.serials(), &[0]);
    assert_same(&rt, copy.headers().len(), 2);
    drop(copy);
    assert_holds(&rt, "nothing shares the bytes", secret.is_unique());
    let later = later_request(&rt, alloc, &mut pool);
    assert_same(&rt, (later.serial(), pool.made()), (0, 1));
}

#[test]
fn a_full_pool_drops_a_record(rt: HostRuntime) {
    let alloc = rt.alloc();
    let mut pool = new_pool(&rt, alloc);
    let (first, second) = first_requests(&rt, alloc, &mut pool);
    pool.give_back(first);
    pool.give_back(second);
    assert_same(&rt, pool.serials(), &[0]);
    assert_same(&rt, (pool.made(), pool.is_available()), (2, false));
}

#[test]
fn a_disabled_pool_keeps_nothing(rt: HostRuntime) {
    let alloc = rt.alloc();
    let mut pool = new_pool(&rt, alloc);
    let (first, second) = first_requests(&rt, alloc, &mut pool);
    pool.give_back(first);
    pool.disable();
    assert_same(&rt, pool.serials().len(), 0);
    pool.give_back(second);
    assert_same(&rt, pool.serials().len(), 0);
    assert_same(&rt, (pool.made(), pool.is_available()), (2, false));
}
