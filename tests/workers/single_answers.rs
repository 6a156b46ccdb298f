//! Connections whose bytes are fed and whose replies are written by calls in any order.
use crate::collected::collected;
use crate::compare::assert_same;
use crate::requests::worker;
use bytes::Bytes;
use http::StatusCode;
use std::alloc::Global;
use std::process::Abort;
use web_body::{Mark, Marks, Payload};
use web_extract::Ready;
use web_http1::{Answered, Begun, BodyWritten, Connection, DueBody, Ended, ReplySettings};
use web_messages::{LengthFault, Limits, Wrong};
use web_reply::{BoxBody, HttpResponse};
use web_request::{NoData, NoMemory, PlainApp};
use web_worker::{FnHandler, Handler, Worker};

type Site = PlainApp<Marks>;

type Streamed = HttpResponse<BoxBody<Marks>>;

/// Connections of several messages each, and how they end.
const STREAMS: &[(&[u8], Ended)] = &[
    (
        b"GET / HTTP/1.1\r\nhost: x\r\n\r\n\r\n\r\n\
        POST / HTTP/1.1\r\ncontent-length: 5\r\n\r\nhello\
        HEAD / HTTP/1.1\r\ncontent-length: 3\r\n\r\nabcPOST / HTTP/1.1\r\n\
        transfer-encoding: chunked\r\n\r\n2;a=b\r\nhe\r\n3\r\nllo\r\n0\r\na: b\r\n\r\n\
        POST / HTTP/1.1\r\ncontent-length: 9\r\n\r\n123456789\r\n",
        Ended::Closed,
    ),
    (
        b"POST / HTTP/1.1\r\ncontent-length: 2\r\n\r\nabPOST / HTTP/1.1\r\nconnection: close\r\n\
        content-length: 4\r\n\r\nlastGET / HTTP/1.1\r\n\r\n",
        Ended::Closed,
    ),
    (
        b"POST / HTTP/1.1\r\ncontent-length: 3\r\n\r\nabcPOST / HTTP/1.1\r\n\
        content-length: +2\r\n\r\nhi",
        Ended::Refused(Wrong::Length(LengthFault::Malformed)),
    ),
    (
        b"GET / HTTP/1.1\r\n\r\nPOST / HTTP/1.1\r\ncontent-length: 3\r\n\r\nab",
        Ended::Refused(Wrong::Cut),
    ),
];

/// Numbers that look drawn, the same in each run.
#[derive(Drop)]
struct Draws(u64);

impl Draws {
    /// A number below this one.
    fn below(&mut self, most: usize) -> usize {
        self.0 = self.0.wrapping_mul(6_364_136_223_846_793_005);
        self.0 = self.0.wrapping_add(1_442_695_040_888_963_407);
        (self.0 >> 33) as usize % most
    }
}

/// The bytes of a message as the body of its reply, which comes in pieces of two bytes.
fn streamed(alloc: Global, bytes: &Bytes) -> Result<Streamed, NoMemory> {
    let mut marks = Vec::new(alloc);
    let mut at = 0;
    while at < bytes.len() {
        let end = (at + 2).min(bytes.len());
        marks.push(Mark::Piece(bytes.slice(at..end)?))?;
        marks.push(Mark::Stall)?;
        at = end;
    }
    let payload = Box::new(alloc, Payload::Stream(Marks::new(marks)))?;
    let body = BoxBody::Sized(bytes.len() as u64, payload);
    Ok(HttpResponse::with_body(alloc, StatusCode::OK, body))
}

/// Writes a body to its end.
fn pump(rt: &impl Abort, alloc: Global, body: DueBody<Marks>, out: &mut Vec<u8>) -> Connection {
    let mut body = body;
    for _ in 0..99 {
        match body.write_next(alloc, out) {
            BodyWritten::Piece | BodyWritten::Pending => {}
            written => {
                assert_same(rt, written, BodyWritten::Done);
                break;
            }
        }
    }
    body.into_connection()
}

/// A reply that is begun, and its body to its end.
fn begin<H: Handler<Bytes, Output = Streamed>>(
    rt: &impl Abort,
    alloc: Global,
    worker: &mut Worker<Site>,
    handler: &mut H,
    connection: Connection,
    out: &mut Vec<u8>,
) -> Connection {
    let settings = ReplySettings::default();
    match connection.begin_next(alloc, worker, handler, &settings, out) {
        Begun::Answered(after, _) => after,
        Begun::Due(body) => pump(rt, alloc, body, out),
    }
}

/// One call that is drawn. What it says is compared with what it wrote.
fn call<H: Handler<Bytes, Output = Streamed>>(
    rt: &impl Abort,
    alloc: Global,
    worker: &mut Worker<Site>,
    handler: &mut H,
    connection: Connection,
    draw: usize,
    out: &mut Vec<u8>,
) -> Connection {
    let mut connection = connection;
    let before = out.len();
    if draw == 0 {
        connection.answer(alloc, worker, handler, out);
        return connection;
    }
    if draw == 1 {
        return begin(rt, alloc, worker, handler, connection, out);
    }
    let answered = connection.answer_next(alloc, worker, handler, out);
    assert_same(
        rt,
        connection.ended().is_some(),
        matches!(answered, Answered::Ended(_)),
    );
    if matches!(answered, Answered::Waits) {
        assert_same(rt, out.len(), before);
    }
    connection
}

#[test]
fn calls_in_any_order_write_the_same(rt: HostRuntime) {
    let alloc = rt.alloc();
    let mut handler = FnHandler(|body: Bytes| -> Result<Ready<Streamed>, NoMemory> {
        Ok(Ready::new(streamed(alloc, &body)?))
    });
    for (bytes, end) in STREAMS {
        let (ended, expected) = collected(&rt, alloc, bytes, &mut handler);
        assert_same(&rt, ended, *end);
        for seed in 0..200 {
            let mut draws = Draws(seed);
            let mut worker: Worker<Site> = worker(&rt, alloc, NoData);
            let mut connection = Connection::new(alloc, Limits::default());
            let (mut at, mut out) = (0, Vec::new(alloc));
            while at < bytes.len() {
                let next = (at + draws.below(40)).min(bytes.len());
                let piece = &bytes[at..next];
                if draws.below(2) == 0 {
                    let taken = connection.take(alloc, &mut worker, &mut handler, piece, &mut out);
                    taken.expect(&rt, "memory");
                } else {
                    connection.feed(alloc, piece).expect(&rt, "memory");
                }
                at = next;
                for _ in 0..draws.below(4) {
                    let draw = draws.below(3);
                    connection = call(
                        &rt,
                        alloc,
                        &mut worker,
                        &mut handler,
                        connection,
                        draw,
                        &mut out,
                    );
                }
            }
            connection.answer(alloc, &mut worker, &mut handler, &mut out);
            assert_same(&rt, connection.finish(alloc, &mut out), *end);
            assert_same(&rt, out.as_slice(), expected.as_slice());
        }
    }
}
