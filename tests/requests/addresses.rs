//! Texts of addresses.
use crate::compare::assert_same;
use std::alloc::Global;
use std::fmt::Display;
use std::net;
use std::process::Abort;
use web_request::{IpAddr, MissingPeerAddr, PeerAddr, SocketAddr};

/// Groups of addresses of IPv6, and their texts.
const VERSION_SIX: &[([u16; 8], &str)] = &[
    ([8193, 3512, 0, 0, 0, 0, 0, 1], "2001:db8::1"),
    ([0, 0, 0, 0, 0, 0, 0, 1], "::1"),
    ([1, 0, 0, 0, 0, 0, 0, 0], "1::"),
    ([1, 0, 2, 3, 4, 5, 6, 7], "1:0:2:3:4:5:6:7"),
    ([1, 0, 0, 2, 0, 0, 3, 4], "1::2:0:0:3:4"),
    ([1, 0, 0, 2, 0, 0, 0, 4], "1:0:0:2::4"),
    ([43981, 239, 1, 2, 3, 4, 5, 65535], "abcd:ef:1:2:3:4:5:ffff"),
    ([0, 0, 0, 0, 0, 65534, 1, 2], "::fffe:1:2"),
    ([1, 0, 2748, 1, 1, 1, 1, 1], "1:0:abc:1:1:1:1:1"),
    ([0, 0, 0, 0, 0, 0, 1, 0], "::1:0"),
    ([1, 1, 0, 1, 2748, 0, 1, 2748], "1:1:0:1:abc:0:1:abc"),
    ([1, 2748, 0, 0, 2748, 2748, 0, 2748], "1:abc::abc:abc:0:abc"),
    ([1, 2748, 1, 0, 0, 1, 0, 2748], "1:abc:1::1:0:abc"),
    ([1, 0, 2748, 2748, 0, 2748, 1, 1], "1:0:abc:abc:0:abc:1:1"),
    ([1, 0, 2748, 2748, 1, 1, 0, 1], "1:0:abc:abc:1:1:0:1"),
];

/// Octets of addresses of IPv4, and their texts.
const VERSION_FOUR: &[([u8; 4], &str)] = &[
    ([0, 0, 0, 0], "0.0.0.0"),
    ([127, 0, 0, 1], "127.0.0.1"),
];

/// Compares the text that a value prints.
fn assert_text<T: Display>(rt: &impl Abort, alloc: Global, value: &T, expected: &str) {
    let text = value.to_string(alloc).expect(rt, "memory");
    assert_same(rt, text.as_str(), expected);
}

#[test]
fn addresses_have_their_shortest_texts(rt: HostRuntime) {
    for (groups, text) in VERSION_SIX {
        assert_text(&rt, rt.alloc(), &IpAddr::V6(*groups), text);
    }
    for (octets, text) in VERSION_FOUR {
        assert_text(&rt, rt.alloc(), &IpAddr::V4(*octets), text);
    }
}

#[test]
fn addresses_of_std_keep_address_and_port(rt: HostRuntime) {
    let alloc = rt.alloc();
    let four = net::SocketAddrV4::new(net::Ipv4Addr::new(192, 0, 2, 7), 8080);
    let four = SocketAddr::from(net::SocketAddr::V4(four));
    assert_text(&rt, alloc, &four, "192.0.2.7:8080");
    let six = net::Ipv6Addr::new(0x2001, 0xdb8, 0, 0, 0, 0, 0, 1);
    let six = SocketAddr::from(net::SocketAddr::V6(net::SocketAddrV6::new(six, 443, 5, 6)));
    assert_text(&rt, alloc, &six, "[2001:db8::1]:443");
}

#[test]
fn an_address_with_a_port_has_brackets_round_version_six(rt: HostRuntime) {
    let alloc = rt.alloc();
    let four = SocketAddr {
        ip: IpAddr::V4([127, 0, 0, 1]),
        port: 80,
    };
    assert_text(&rt, alloc, &four, "127.0.0.1:80");
    let six = SocketAddr {
        ip: IpAddr::V6([0, 0, 0, 0, 0, 0, 0, 1]),
        port: 65_535,
    };
    assert_text(&rt, alloc, &six, "[::1]:65535");
    assert_text(&rt, alloc, &PeerAddr(six), "[::1]:65535");
    assert_same(&rt, PeerAddr(four).into_inner() == four, true);
    assert_same(&rt, four < six, true);
    assert_text(&rt, alloc, &MissingPeerAddr, "Missing peer address");
}
