//! Where requests came from and were sent to, also by a duplicate.
use crate::compare::assert_same;
use crate::requests::{Field, config, head_of};
use std::alloc::Global;
use std::process::Abort;
use web_request::{ConnectionInfo, Duplicate, IpAddr, RequestHead, SocketAddr};

/// A head, and what it says under the settings of the tests.
struct ConnectionRow {
    headers: &'static [Field],
    target: &'static str,
    peer: Option<([u8; 4], &'static str)>,
    host: &'static str,
    scheme: &'static str,
    client: Option<&'static str>,
}

/// What heads say.
const CONNECTIONS: &[ConnectionRow] = &[
    ConnectionRow {
        headers: &[(
            "forwarded",
            b"for=192.0.2.60; proto=https; by=203.0.113.43; host=rust-lang.org",
        )],
        target: "/",
        peer: None,
        host: "rust-lang.org",
        scheme: "https",
        client: Some("192.0.2.60"),
    },
    ConnectionRow {
        headers: &[
            (
                "forwarded",
                b"for=\"[::1]\"; proto=\"ht\"\"tp\"; PROTO=http; proto=",
            ),
            ("host", b" h "),
        ],
        target: "http://auth/",
        peer: Some(([10, 0, 0, 1], "10.0.0.1")),
        host: " h ",
        scheme: "ht\"\"tp",
        client: Some("::1"),
    },
    ConnectionRow {
        headers: &[],
        target: "/",
        peer: Some(([9, 9, 9, 9], "9.9.9.9")),
        host: "localhost:8080",
        scheme: "http",
        client: Some("9.9.9.9"),
    },
];

fn head_with(rt: &impl Abort, alloc: Global, row: &ConnectionRow) -> RequestHead {
    let mut head = head_of(rt, alloc, row.target, row.headers);
    head.peer_addr = row.peer.map(|peer| SocketAddr {
        ip: IpAddr::V4(peer.0),
        port: 80,
    });
    head
}

fn assert_info(rt: &impl Abort, info: &ConnectionInfo, row: &ConnectionRow) {
    let peer = row.peer.map(|peer| peer.1);
    assert_same(rt, (info.host(), info.scheme()), (row.host, row.scheme));
    assert_same(rt, (info.peer_addr(), info.remote_addr()), (peer, peer));
    assert_same(rt, info.realip_remote_addr(), row.client);
}

#[test]
fn heads_say_where_requests_came_from(rt: HostRuntime) {
    let alloc = rt.alloc();
    let config = config(&rt, alloc);
    for row in CONNECTIONS {
        let head = head_with(&rt, alloc, row);
        let info = ConnectionInfo::new(alloc, &head, &config).expect(&rt, "memory");
        assert_info(&rt, &info, row);
        let copy = info.duplicate(alloc).expect(&rt, "memory");
        assert_info(&rt, &copy, row);
    }
}
