//! Documents: the replies to conditional requests and to ranges, and lists that are no store.
use crate::compare::assert_same;
use crate::printed::assert_reply;
use crate::requests::{new_request, request_with};
use bytes::Bytes;
use http::{Method, StatusCode};
use http_header::{CACHE_CONTROL, HeaderMap, HeaderName, HeaderValue};
use httpdate::HttpDate;
use std::alloc::Global;
use std::process::Abort;
use web_docs::{Document, Store, StoreFault, answer_document};
use web_entities::EntityTag;
use web_reply::{HttpResponse, WholeBody};
use web_request::{App, HttpRequest};
use web_texts::{Fail, Mime, NoMemory, Text};

/// A document of plain text of 1,700,000,000 seconds.
fn document(
    rt: &impl Abort,
    alloc: Global,
    path: &str,
    media_type: &str,
    tag: &str,
    body: &'static [u8],
) -> Document {
    let text = Text::of(alloc, tag).expect(rt, "memory");
    assert!(rt; EntityTag::is_tag_text(text.as_str()));
    Document {
        path: Text::of(alloc, path).expect(rt, "memory"),
        media_type: Mime::parse(alloc, media_type).expect(rt, "a media type"),
        tag: EntityTag::new(tag == "e", text),
        modified: HttpDate::from_unix_secs(1_700_000_000).expect(rt, "a date"),
        body: Bytes::from_static(body),
    }
}

/// A store of the documents of these paths, media types and tags, or what is wrong with them.
fn store_of(
    rt: &impl Abort,
    alloc: Global,
    rows: &[(&str, &str, &str)],
) -> Result<Store, Fail<StoreFault>> {
    let mut documents = Vec::new(alloc);
    for (path, media_type, tag) in rows {
        let body: &'static [u8] = if *tag == "e" { b"" } else { b"0123456789" };
        let document = document(rt, alloc, path, media_type, tag, body);
        documents.push(document).expect(rt, "memory");
    }
    Store::new(alloc, documents)
}

fn header_map(rt: &impl Abort, alloc: Global, headers: &[(&str, &str)]) -> HeaderMap<HeaderValue> {
    let mut map = HeaderMap::new(alloc);
    for (name, value) in headers {
        let name = HeaderName::from_bytes(alloc, name.as_bytes()).expect(rt, "a name");
        let value = HeaderValue::from_str(alloc, value).expect(rt, "a value");
        map.append(name, value).expect(rt, "room");
    }
    map
}

/// The method, the target and the headers of a request, and the text of its reply.
type Row = (
    &'static str,
    &'static str,
    &'static [(&'static str, &'static str)],
    &'static str,
);

const PART: &str = "206; accept-ranges: bytes; content-type: text/plain; etag: \"v1\"; \
    last-modified: Tue, 14 Nov 2023 22:13:20 GMT; content-range: bytes 2-4/10; bytes 234";

const LAST: &str = "206; accept-ranges: bytes; content-type: text/plain; etag: \"v1\"; \
    last-modified: Tue, 14 Nov 2023 22:13:20 GMT; content-range: bytes 7-9/10; bytes 789";

const WHOLE: &str = "200; accept-ranges: bytes; content-type: text/plain; etag: \"v1\"; \
    last-modified: Tue, 14 Nov 2023 22:13:20 GMT; bytes 0123456789";

const HEAD: &str = "200; accept-ranges: bytes; content-type: text/plain; etag: \"v1\"; \
    last-modified: Tue, 14 Nov 2023 22:13:20 GMT; empty";

const KNOWN: &str = "304; etag: \"v1\"; last-modified: Tue, 14 Nov 2023 22:13:20 GMT; empty";

const ROWS: &[Row] = &[
    ("GET", "/doc/a", &[], WHOLE),
    ("HEAD", "/doc/a", &[("range", "bytes=2-4")], HEAD),
    ("GET", "/doc/a", &[("range", "bytes=2-4")], PART),
    (
        "GET",
        "/doc/a",
        &[("range", "bytes=10-")],
        "416; content-range: bytes */10; empty",
    ),
    ("GET", "/doc/a", &[("if-none-match", "W/\"v1\"")], KNOWN),
    ("GET", "/doc/a", &[("if-match", "W/\"v1\"")], "412; empty"),
    (
        "GET",
        "/doc/a",
        &[
            ("if-match", "*"),
            ("if-unmodified-since", "Tue, 14 Nov 2023 22:13:19 GMT"),
        ],
        WHOLE,
    ),
    (
        "GET",
        "/doc/a",
        &[
            ("if-unmodified-since", "Tue, 14 Nov 2023 22:13:19 GMT"),
            ("if-none-match", "*"),
        ],
        "412; empty",
    ),
    (
        "GET",
        "/doc/a",
        &[("range", "bytes=-3"), ("if-range", "\"v1\"")],
        LAST,
    ),
    (
        "GET",
        "/doc/a",
        &[("range", "bytes=-3"), ("if-range", "W/\"v1\"")],
        WHOLE,
    ),
    ("GET", "/doc/a", &[("range", "bytes=0-0,2-2")], WHOLE),
    (
        "GET",
        "/doc/empty",
        &[("range", "bytes=0-")],
        "416; content-range: bytes */0; empty",
    ),
    ("GET", "/doc/none", &[], "404; empty"),
    (
        "PUT",
        "/doc/a",
        &[("if-match", "*")],
        "405; allow: GET, HEAD; empty",
    ),
];

fn assert_row(rt: &impl Abort, alloc: Global, store: &Store, row: &Row) {
    let (method, target, headers, reply) = row;
    let method = Method::from_bytes(alloc, method.as_bytes()).expect(rt, "a method");
    let req = request_with(rt, alloc, method, target, header_map(rt, alloc, headers));
    let found = answer_document(alloc, store, &req).expect(rt, "memory");
    assert_reply(rt, alloc, found, reply);
}

#[test]
fn replies_to_requests_for_documents(rt: HostRuntime) {
    let alloc = rt.alloc();
    let rows = [
        ("/doc/a", "text/plain", "v1"),
        ("/doc/empty", "text/plain", "e"),
    ];
    let store = store_of(&rt, alloc, &rows).ok().expect(&rt, "a store");
    for row in ROWS {
        assert_row(&rt, alloc, &store, row);
    }
}

/// What is wrong with a list of documents, as a text.
fn fault_text(rt: &impl Abort, alloc: Global, rows: &[(&str, &str, &str)]) -> String {
    match store_of(rt, alloc, rows) {
        Ok(_) => format!(in alloc; "none").expect(rt, "memory"),
        Err(Fail::Of(StoreFault::DuplicatePath(path))) => {
            format!(in alloc; "duplicate {path}").expect(rt, "memory")
        }
        Err(Fail::Of(StoreFault::Value(path))) => {
            format!(in alloc; "value {path}").expect(rt, "memory")
        }
        Err(Fail::NoMemory) => format!(in alloc; "memory").expect(rt, "memory"),
    }
}

#[test]
fn faults_of_lists_of_documents(rt: HostRuntime) {
    let alloc = rt.alloc();
    let a = ("/a", "text/plain", "v1");
    let b = ("/b", "text/plain", "v1");
    let bad = ("/bad", "text/plain; x=\"\\\u{1}\"", "v1");
    let tables: [(&[(&str, &str, &str)], &str); 4] = [
        (&[a, b], "none"),
        (&[a, b, a, bad], "duplicate /a"),
        (&[a, bad, a], "value /bad"),
        (&[], "none"),
    ];
    for (rows, expected) in tables {
        assert_same(&rt, fault_text(&rt, alloc, rows).as_str(), expected);
    }
}

/// A store of one document, `/hello`.
fn one_page(
    alloc: Global,
    media_type: Mime,
    modified: HttpDate,
) -> Result<Store, Fail<StoreFault>> {
    let mut documents = Vec::new(alloc);
    documents.push(Document {
        path: Text::of(alloc, "/hello")?,
        media_type,
        tag: EntityTag::new_strong(Text::of(alloc, "v1")?),
        modified,
        body: Bytes::from_static(b"hello, world"),
    })?;
    Store::new(alloc, documents)
}

/// The reply from a store, which a cache may keep for an hour where it has the document, or the
/// document as it is known to the client; and where the store has not the path, a page of its own.
fn page_or_document<A: App>(
    alloc: Global,
    store: &Store,
    req: &HttpRequest<A>,
) -> Result<HttpResponse<WholeBody>, NoMemory> {
    if store.find(req.path()).is_none() {
        return Ok(no_such_page(alloc));
    }
    let mut reply = answer_document(alloc, store, req)?;
    if matches!(reply.status().as_u16(), 200 | 206 | 304) {
        set_lifetime(reply.headers_mut())?;
    }
    Ok(reply)
}

fn set_lifetime(headers: &mut HeaderMap<HeaderValue>) -> Result<(), NoMemory> {
    match headers.insert(CACHE_CONTROL, HeaderValue::from_static("max-age=3600")) {
        Ok(_) => Ok(()),
        Err(_) => Err(NoMemory),
    }
}

fn no_such_page(alloc: Global) -> HttpResponse<WholeBody> {
    let body = WholeBody::Bytes(Bytes::from_static(b"no such page"));
    HttpResponse::with_body(alloc, StatusCode::NOT_FOUND, body)
}

#[test]
fn a_page_beside_documents(rt: HostRuntime) {
    let alloc = rt.alloc();
    let plain = Mime::parse(alloc, "text/plain").expect(&rt, "a media type");
    let modified = HttpDate::from_unix_secs(1_700_000_000).expect(&rt, "a date");
    let store = one_page(alloc, plain, modified).ok().expect(&rt, "a store");
    let rows = [
        (
            "/hello",
            "200; accept-ranges: bytes; content-type: text/plain; etag: \"v1\"; last-modified: \
             Tue, 14 Nov 2023 22:13:20 GMT; cache-control: max-age=3600; bytes hello, world",
        ),
        ("/bye", "404; bytes no such page"),
    ];
    for (target, expected) in rows {
        let req = new_request(&rt, alloc, target);
        let reply = page_or_document(alloc, &store, &req).expect(&rt, "memory");
        assert_reply(&rt, alloc, reply, expected);
    }
}
