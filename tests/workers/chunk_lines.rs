//! What a connection keeps of a body in small chunks.
use crate::compare::assert_same;
use crate::requests::worker;
use bytes::Bytes;
use http::StatusCode;
use std::alloc::Global;
use std::process::Abort;
use web_body::Marks;
use web_extract::Ready;
use web_http1::{Answered, Begun, Connection, ReplySettings};
use web_messages::Limits;
use web_reply::{BoxBody, HttpResponse};
use web_request::{NoData, NoMemory, PlainApp};
use web_worker::{FnHandler, Handler, Worker};

type Site = PlainApp<Marks>;

type Echo = HttpResponse<BoxBody<Marks>>;

const HEAD: &[u8] = b"POST / HTTP/1.1\r\ntransfer-encoding: chunked\r\n\r\n";

/// A chunk of one byte, with an extension.
const CHUNK: &[u8] = b"1;a=12345678901234567890\r\nx\r\n";

/// The last chunk, a trailer, and the message after the body.
const END: &[u8] = b"0;a\r\nb: c\r\n\r\nGET / HTTP/1.1\r\n\r\n";

const CHUNKS: usize = 20_000;

/// How many bytes are kept at most of the body, with its head.
const MOST: usize = HEAD.len() + CHUNKS + CHUNKS / 16 + 20_738;

fn limits() -> Limits {
    Limits {
        body: CHUNKS,
        ..Limits::default()
    }
}

/// The bytes of all messages.
fn messages(alloc: Global) -> Result<Vec<u8>, NoMemory> {
    let mut bytes = Vec::from_slice(alloc, HEAD)?;
    for _ in 0..CHUNKS {
        bytes.extend_from_slice(CHUNK)?;
    }
    bytes.extend_from_slice(END)?;
    Ok(bytes)
}

/// How the bytes that came are answered.
#[derive(Clone, Copy)]
enum Way {
    All,
    One,
    Begun,
}

/// Answers all that is whole.
fn drain<H: Handler<Bytes, Output = Echo>>(
    alloc: Global,
    worker: &mut Worker<Site>,
    handler: &mut H,
    way: Way,
    connection: Connection,
    out: &mut Vec<u8>,
) -> Connection {
    let mut connection = connection;
    for _ in 0..9 {
        match way {
            Way::All => {
                connection.answer(alloc, worker, handler, out);
                return connection;
            }
            Way::One => match connection.answer_next(alloc, worker, handler, out) {
                Answered::Replied => {}
                _ => return connection,
            },
            Way::Begun => {
                let settings = ReplySettings::default();
                match connection.begin_next(alloc, worker, handler, &settings, out) {
                    Begun::Answered(after, Answered::Replied) => connection = after,
                    Begun::Answered(after, _) => return after,
                    Begun::Due(body) => return body.into_connection(),
                }
            }
        }
    }
    connection
}

#[test]
fn the_lines_of_chunks_are_dropped(rt: HostRuntime) {
    let alloc = rt.alloc();
    let bytes = messages(alloc).expect(&rt, "memory");
    for (way, step) in [
        (Way::All, 1_000),
        (Way::One, 777),
        (Way::Begun, 4_096),
        (Way::All, 65_536),
    ] {
        let mut worker: Worker<Site> = worker(&rt, alloc, NoData);
        let mut handler = FnHandler(|body: Bytes| -> Result<Ready<Echo>, NoMemory> {
            let body = BoxBody::Bytes(body);
            Ok(Ready::new(HttpResponse::with_body(alloc, StatusCode::OK, body)))
        });
        let mut connection = Connection::new(alloc, limits());
        let (mut at, mut out) = (0, Vec::new(alloc));
        while at < bytes.len() {
            let next = (at + step).min(bytes.len());
            connection
                .feed(alloc, &bytes[at..next])
                .expect(&rt, "memory");
            at = next;
            connection = drain(alloc, &mut worker, &mut handler, way, connection, &mut out);
            assert_same(&rt, connection.ended().is_none(), true);
            assert_same(&rt, connection.kept() <= MOST, true);
        }
        let head: &[u8] = b"HTTP/1.1 200 OK\r\ncontent-length: 20000\r\n\r\n";
        let last: &[u8] = b"HTTP/1.1 200 OK\r\ncontent-length: 0\r\n\r\n";
        assert_same(&rt, out.len(), head.len() + CHUNKS + last.len());
        assert_same(&rt, &out[..head.len()], head);
        let content = &out[head.len()..head.len() + CHUNKS];
        assert_same(&rt, content.iter().all(|byte| *byte == b'x'), true);
        assert_same(&rt, &out[head.len() + CHUNKS..], last);
        assert_same(&rt, connection.kept(), 0);
    }
}
