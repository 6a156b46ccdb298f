//! The address that a request came from, as an argument.
use crate::compare::assert_same;
use crate::requests::{Site, head_of, request_of, request_with};
use std::alloc::Global;
use std::process::Abort;
use web_body::{Poll, Step};
use web_extract::FromRequest;
use web_reply::{Error, HttpResponse, WholeBody};
use web_request::{HttpRequest, IpAddr, MissingPeerAddr, PeerAddr, SocketAddr};

/// The argument that a request gives at the first poll.
fn argument<T: FromRequest<Site>>(
    rt: &impl Abort,
    alloc: Global,
    request: &HttpRequest<Site>,
) -> Result<T, T::Error> {
    let mut future = T::extract(alloc, request).expect(rt, "memory");
    match future.poll(alloc) {
        Step::Ready(result) => result,
        _ => panic!(rt; "no value at the first poll"),
    }
}

const PEER: SocketAddr = SocketAddr {
    ip: IpAddr::V4([10, 0, 0, 1]),
    port: 80,
};

#[test]
fn the_peer_is_an_argument(rt: HostRuntime) {
    let alloc = rt.alloc();
    let mut head = head_of(&rt, alloc, "/", &[]);
    head.peer_addr = Some(PEER);
    let request = request_with(&rt, alloc, head, &[]);
    let found = argument::<PeerAddr>(&rt, alloc, &request);
    assert_same(&rt, found, Ok(PeerAddr(PEER)));
}

/// Compares the status and the text of the reply to an error.
fn assert_reply(rt: &impl Abort, alloc: Global, error: Error, status: u16, expected: &[u8]) {
    let reply = HttpResponse::from_error(alloc, error).expect(rt, "memory");
    assert_same(rt, reply.status().as_u16(), status);
    match reply.body() {
        WholeBody::Bytes(text) => assert_same(rt, text.as_slice(), expected),
        WholeBody::Empty => assert_same(rt, "empty", ""),
    }
}

#[test]
fn a_missing_peer_is_refused(rt: HostRuntime) {
    let alloc = rt.alloc();
    let request = request_of(&rt, alloc, "/", &[]);
    let found = argument::<PeerAddr>(&rt, alloc, &request);
    assert_same(&rt, found, Err(MissingPeerAddr));
    assert_reply(
        &rt,
        alloc,
        Error::from(MissingPeerAddr),
        500,
        b"Missing peer address",
    );
}
