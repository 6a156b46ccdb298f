//! The three routes of `example_items` over one connection: each reply, byte by byte.
use crate::compare::assert_same;
use bytes::Bytes;
use example_items::{item_site, serve_items};
use std::alloc::Global;
use std::process::Abort;
use web_body::{Mark, Marks};
use web_http1::{Connection, Ended};
use web_messages::Limits;
use web_request::{NoData, PlainApp};
use web_testing::test_worker;

type Site = PlainApp<Marks>;

/// Messages of one connection.
const MESSAGES: &[u8] = b"GET / HTTP/1.1\r\nhost: a\r\n\r\n\
    GET /items/7 HTTP/1.1\r\nhost: a\r\n\r\n\
    POST /items/%37 HTTP/1.1\r\nhost: a\r\ncontent-length: 5\r\n\r\nhello\
    GET /items/seven HTTP/1.1\r\nhost: a\r\n\r\n\
    POST /items/7 HTTP/1.1\r\nhost: a\r\ncontent-length: 1\r\n\r\n\xff\
    POST /items/seven HTTP/1.1\r\nhost: a\r\ncontent-length: 1\r\n\r\n\xff\
    DELETE /items/7 HTTP/1.1\r\nhost: a\r\n\r\n\
    GET /item HTTP/1.1\r\nhost: a\r\nconnection: close\r\n\r\n";

/// The replies to them.
const REPLIES: &str = "HTTP/1.1 200 OK\r\ncontent-type: text/plain; charset=utf-8\r\n\
    content-length: 5\r\n\r\nitems\
    HTTP/1.1 200 OK\r\ncontent-type: text/plain; charset=utf-8\r\n\
    content-length: 6\r\n\r\nitem 7\
    HTTP/1.1 200 OK\r\ncontent-type: text/plain; charset=utf-8\r\n\
    content-length: 8\r\n\r\n7: hello\
    HTTP/1.1 404 Not Found\r\ncontent-type: text/plain; charset=utf-8\r\n\
    content-length: 40\r\n\r\nid: no whole number from 0 to 4294967295\
    HTTP/1.1 400 Bad Request\r\ncontent-type: text/plain; charset=utf-8\r\n\
    content-length: 19\r\n\r\nCan not decode body\
    HTTP/1.1 404 Not Found\r\ncontent-type: text/plain; charset=utf-8\r\n\
    content-length: 60\r\n\r\nid: no whole number from 0 to 4294967295\nCan not decode body\
    HTTP/1.1 405 Method Not Allowed\r\nallow: GET, POST, HEAD, OPTIONS\r\n\
    content-length: 0\r\n\r\n\
    HTTP/1.1 404 Not Found\r\ncontent-length: 0\r\nconnection: close\r\n\r\n";

/// The text of these bytes.
fn text<'a>(rt: &impl Abort, bytes: &'a [u8]) -> &'a str {
    str::from_utf8(bytes).ok().expect(rt, "a text")
}

#[test]
fn three_routes_have_exact_replies_over_one_connection(rt: HostRuntime) {
    let alloc = rt.alloc();
    let mut worker = test_worker::<Site>(alloc, NoData).expect(&rt, "memory");
    let marks = vec![in alloc; Mark::Piece(Bytes::from_static(MESSAGES))];
    let mut source = Marks::new(marks.expect(&rt, "memory"));
    let mut out = Vec::new(alloc);
    let limits = Limits::default();
    let ended = serve_items(alloc, &mut worker, limits, &mut source, &mut out);
    assert_same(&rt, ended.ok().expect(&rt, "the routes"), Ended::Closed);
    assert_same(&rt, text(&rt, out.as_slice()), REPLIES);
}

#[test]
fn the_same_comes_of_single_bytes(rt: HostRuntime) {
    let alloc = rt.alloc();
    let mut worker = test_worker::<Site>(alloc, NoData).expect(&rt, "memory");
    let site = item_site::<Marks>(alloc);
    let mut site = site.ok().expect(&rt, "the routes");
    let mut connection = Connection::new(alloc, Limits::default());
    let mut out = Vec::new(alloc);
    for byte in MESSAGES {
        connection.feed(alloc, &[*byte]).expect(&rt, "memory");
        connection.answer(alloc, &mut worker, &mut site, &mut out);
    }
    let ended = connection.finish(alloc, &mut out);
    assert_same(&rt, ended, Ended::Closed);
    assert_same(&rt, text(&rt, out.as_slice()), REPLIES);
}
