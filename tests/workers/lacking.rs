//! Sources that lack memory for a piece, below arguments, replies and connections.
use crate::compare::assert_same;
use crate::lacking_source::LackingSource;
use crate::requests::{head, request_of, worker};
use bytes::Bytes;
use example_handlers::Booking;
use http::StatusCode;
use http_header::{CONTENT_TYPE, HeaderValue};
use std::alloc::Global;
use std::process::Abort;
use web_body::Marks;
use web_extract::{FromRequest, Poll, Ready, Step};
use web_extract_body::{Form, Json};
use web_http1::{Begun, BodyWritten, Connection, Ended, ReplySettings, serve_connection};
use web_messages::Limits;
use web_multipart::Multipart;
use web_reply::{BoxBody, HttpResponse};
use web_request::{HttpRequest, Mark, NoData, NoMemory, PlainApp, Source};
use web_worker::FnHandler;

/// An application whose bodies come from such sources.
type Site = PlainApp<LackingSource>;

fn request(rt: &impl Abort, alloc: Global, media_type: &'static str) -> HttpRequest<Site> {
    let mut head = head(rt, alloc, "/");
    let media_type = HeaderValue::from_static(media_type);
    let added = head.headers.append(CONTENT_TYPE, media_type);
    assert_same(rt, added.is_ok(), true);
    request_of(rt, alloc, NoData, head)
}

/// Extracts an argument from a request with a body of this media type, whose source gives this text
/// and then lacks memory. The first poll must lack memory as well.
fn assert_lacks<T: FromRequest<Site>>(
    rt: &impl Abort,
    alloc: Global,
    media_type: &'static str,
    text: &'static str,
) {
    let mut payload = LackingSource::payload(text);
    let request = request(rt, alloc, media_type);
    let mut future = T::from_request(alloc, &request, &mut payload).expect(rt, "memory");
    let step = future.poll(alloc);
    assert_same(rt, matches!(step, Step::NoMemory), true);
}

#[test]
fn arguments_lack_memory(rt: HostRuntime) {
    let alloc = rt.alloc();
    let form = "application/x-www-form-urlencoded";
    assert_lacks::<Bytes>(&rt, alloc, "text/plain", "ab");
    assert_lacks::<String>(&rt, alloc, "text/plain", "ab");
    assert_lacks::<Json<Booking>>(&rt, alloc, "application/json", "{}");
    assert_lacks::<Form<Booking>>(&rt, alloc, form, "a=b");
    assert_lacks::<Multipart<9>>(&rt, alloc, "multipart/form-data; boundary=b", "--b\r\n");
    assert_lacks::<(Bytes, String)>(&rt, alloc, "text/plain", "ab");
}

/// A reply with a body of unknown length, whose source gives `ab` and then lacks memory.
fn lacking_reply(alloc: Global) -> Result<Ready<HttpResponse<BoxBody<LackingSource>>>, NoMemory> {
    let payload = Box::new(alloc, LackingSource::payload("ab"))?;
    let body = BoxBody::Stream(payload);
    Ok(Ready::new(HttpResponse::with_body(alloc, StatusCode::OK, body)))
}

/// What a connection over this source comes to, and what it writes. Each reply lacks memory.
fn served<S: Source>(rt: &impl Abort, alloc: Global, mut source: S) -> (Ended, Vec<u8>) {
    let mut worker = worker::<Site>(rt, alloc, NoData);
    let mut handler = FnHandler(|_body: Bytes| lacking_reply(alloc));
    let mut out = Vec::new(alloc);
    let ended = serve_connection(
        alloc,
        &mut worker,
        &mut handler,
        Limits::default(),
        &mut source,
        &mut out,
    );
    (ended, out)
}

#[test]
fn replies_lack_memory(rt: HostRuntime) {
    let alloc = rt.alloc();
    let message = Bytes::from_static(b"GET / HTTP/1.1\r\n\r\n");
    let marks = vec![in alloc; Mark::Piece(message)].expect(&rt, "memory");
    let (ended, out) = served(&rt, alloc, Marks::new(marks));
    assert_same(&rt, ended, Ended::NoMemory);
    assert_same(&rt, out.len(), 0);
}

#[test]
fn connections_lack_memory(rt: HostRuntime) {
    let alloc = rt.alloc();
    for text in ["", "\r\n", "GET / HTTP/1.1\r\n"] {
        let (ended, out) = served(&rt, alloc, LackingSource::new(text));
        assert_same(&rt, ended, Ended::NoMemory);
        assert_same(&rt, out.len(), 0);
    }
}

/// A body that is sent piece by piece is not ended where its source lacks memory.
#[test]
fn sent_bodies_lack_memory(rt: HostRuntime) {
    let alloc = rt.alloc();
    let mut worker = worker::<Site>(&rt, alloc, NoData);
    let mut handler = FnHandler(|_body: Bytes| lacking_reply(alloc));
    let settings = ReplySettings::default();
    let mut connection = Connection::new(alloc, Limits::default());
    let fed = connection.feed(alloc, b"GET / HTTP/1.1\r\n\r\n");
    assert_same(&rt, fed.is_ok(), true);
    let mut out = Vec::new(alloc);
    match connection.begin_next(alloc, &mut worker, &mut handler, &settings, &mut out) {
        Begun::Due(mut body) => {
            out.clear();
            assert_same(&rt, body.write_next(alloc, &mut out), BodyWritten::Piece);
            assert_same(&rt, body.write_next(alloc, &mut out), BodyWritten::NoMemory);
            assert_same(&rt, out.as_slice(), b"2\r\nab\r\n".as_slice());
            assert_same(&rt, body.write_next(alloc, &mut out), BodyWritten::Broken);
            let ended = body.into_connection().ended();
            assert_same(&rt, ended, Some(Ended::SourceFault));
        }
        Begun::Answered(_, _) => assert_same(&rt, true, false),
    }
}
