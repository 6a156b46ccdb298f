//! One exchange as a future.
use crate::compare::assert_same;
use crate::runtimes::Tests;
use bytes::Bytes;
use futures::task::Poll;
use futures::test::MockTask;
use http::{Method, StatusCode, Version};
use http_header::HeaderMap;
use http_uri::Uri;
use std::alloc::Global;
use std::process::Abort;
use std::rc::Rc;
use web_answering::Answering;
use web_body::{Mark, Marks, Payload};
use web_extract::Ready;
use web_reply::{BoxBody, HttpResponse};
use web_request::{AppConfig, NoData, NoMemory, PlainApp, RequestHead};
use web_worker::{Exchange, FnHandler, Worker};

type Site = PlainApp<Marks>;

fn exchange(rt: &impl Abort, alloc: Global, body: Payload<Marks>) -> Exchange<Site> {
    let head = RequestHead {
        uri: Uri::from_static("/").expect(rt, "a target"),
        method: Method::POST,
        version: Version::HTTP_11,
        headers: HeaderMap::new(alloc),
        peer_addr: None,
    };
    Exchange {
        head,
        params: Vec::new(alloc),
        layers: Vec::new(alloc),
        conn: None,
        local: None,
        body,
    }
}

fn worker(rt: &impl Abort, alloc: Global) -> Worker<Site> {
    let config = AppConfig::local(alloc).expect(rt, "memory");
    let root = Rc::new(alloc, NoData).expect(rt, "memory");
    Worker::new(alloc, root, config, 0).expect(rt, "memory")
}

/// How many polls leave an exchange with this body unanswered, and the reply of a handler that
/// gives it back.
fn answered<R: Tests>(rt: &R, body: Payload<Marks>) -> (usize, HttpResponse<BoxBody<Marks>>) {
    let alloc = rt.alloc();
    let handler = FnHandler(|body: Bytes| -> Result<Ready<Bytes>, NoMemory> {
        Ok(Ready::new(body))
    });
    let exchange = exchange(rt, alloc, body);
    let mut answering = Answering::new(alloc, worker(rt, alloc), handler, exchange);
    let task = MockTask::new(rt).expect(rt, "a task");
    let mut polls = 0;
    loop {
        match task.poll(&mut answering) {
            Poll::Ready(reply) => return (polls, reply.expect(rt, "memory")),
            Poll::Pending => polls += 1,
        }
    }
}

fn assert_reply(rt: &impl Abort, reply: &HttpResponse<BoxBody<Marks>>, body: &[u8]) {
    assert_same(rt, reply.status(), StatusCode::OK);
    match reply.body() {
        BoxBody::Bytes(bytes) => assert_same(rt, bytes.as_slice(), body),
        _ => assert_same(rt, "another body", "bytes"),
    }
}

#[test]
fn a_body_in_memory_is_answered_at_once(rt: HostRuntime) {
    let (polls, reply) = answered(&rt, Payload::Whole(Bytes::from_static(b"hello")));
    assert_same(&rt, polls, 0);
    assert_reply(&rt, &reply, b"hello");
}

#[test]
fn a_body_that_stalls_is_polled_again(rt: HostRuntime) {
    let marks = vec![in rt.alloc();
        Mark::Piece(Bytes::from_static(b"he")),
        Mark::Stall,
        Mark::Stall,
        Mark::Piece(Bytes::from_static(b"llo")),
    ]
    .expect(&rt, "memory");
    let (polls, reply) = answered(&rt, Payload::Stream(Marks::new(marks)));
    assert_same(&rt, polls, 2);
    assert_reply(&rt, &reply, b"hello");
}
