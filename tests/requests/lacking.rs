//! Sources that lack memory for a piece: what came before is no whole body.
use crate::anything::Anything;
use crate::compare::assert_same;
use crate::lacking_source::LackingSource;
use crate::requests::request_of;
use std::alloc::Global;
use std::process::Abort;
use web_body::{HttpMessageBody, Poll, Step};
use web_decoders::{AllowType, JsonBody, UrlEncoded};
use web_lines::Readlines;
use web_multipart_stream::MultipartStream;
use web_request::{HttpRequest, PlainApp};
use web_service::ServiceRequest;
use web_texts::Mime;

/// A predicate that no test needs.
#[derive(Drop)]
struct AnyType;

impl AllowType for AnyType {
    ghost use Rattle.std.specs.Prelude.{⊤};

    ghost allows_type = { λ p m answer. ⊤ };

    fn allows(&self, _media_type: &Mime) -> bool {
        true
    }
}

/// A request whose body has this media type.
fn request_for(
    rt: &impl Abort,
    alloc: Global,
    media_type: &'static [u8],
) -> HttpRequest<PlainApp<LackingSource>> {
    request_of(rt, alloc, "/", &[("content-type", media_type)])
}

fn request(rt: &impl Abort, alloc: Global) -> HttpRequest<PlainApp<LackingSource>> {
    request_for(rt, alloc, b"multipart/form-data; boundary=b")
}

fn name_of<T>(step: &Step<T>) -> &'static str {
    match step {
        Step::Pending => "pending",
        Step::Ready(_) => "ready",
        Step::NoMemory => "no memory",
    }
}

#[test]
fn a_collector_lacks_memory(rt: HostRuntime) {
    let alloc = rt.alloc();
    let mut payload = LackingSource::payload("ab");
    let mut body = HttpMessageBody::new(alloc, &request(&rt, alloc), &mut payload);
    assert_same(&rt, name_of(&body.poll(alloc)), "no memory");
    let mut body = LackingSource::payload("ab").to_bytes(alloc);
    assert_same(&rt, name_of(&body.poll(alloc)), "no memory");
}

#[test]
fn whole_payloads_lack_memory(rt: HostRuntime) {
    let alloc = rt.alloc();
    let mut body = LackingSource::payload("ab").to_bytes_limited(alloc, 9);
    assert_same(&rt, name_of(&body.poll(alloc)), "no memory");
}

#[test]
fn decoders_lack_memory(rt: HostRuntime) {
    let alloc = rt.alloc();
    let mut payload = LackingSource::payload("[]");
    let request = request_for(&rt, alloc, b"application/json");
    let predicate: Option<&AnyType> = None;
    let body = JsonBody::<Anything, LackingSource>::new(
        alloc,
        &request,
        &mut payload,
        predicate,
        true,
    );
    assert_same(
        &rt,
        name_of(&body.expect(&rt, "memory").poll(alloc)),
        "no memory",
    );
    let mut payload = LackingSource::payload("a=b");
    let request = request_for(&rt, alloc, b"application/x-www-form-urlencoded");
    let body = UrlEncoded::<Anything, LackingSource>::new(alloc, &request, &mut payload);
    assert_same(
        &rt,
        name_of(&body.expect(&rt, "memory").poll(alloc)),
        "no memory",
    );
}

#[test]
fn lines_lack_memory(rt: HostRuntime) {
    let alloc = rt.alloc();
    let mut service = ServiceRequest::from_parts(
        request(&rt, alloc),
        LackingSource::payload("a\nb"),
    );
    let mut lines = Readlines::new(alloc, &mut service).expect(&rt, "memory");
    assert_same(&rt, name_of(&lines.poll_next(alloc)), "ready");
    assert_same(&rt, name_of(&lines.poll_next(alloc)), "no memory");
}

#[test]
fn parts_lack_memory(rt: HostRuntime) {
    let alloc = rt.alloc();
    let mut payload = LackingSource::payload("--b\r\n");
    let request = request(&rt, alloc);
    let stream = MultipartStream::new(alloc, &request, &mut payload, 99);
    let mut stream = stream.expect(&rt, "memory");
    assert_same(&rt, name_of(&stream.poll_next(alloc)), "no memory");
}
