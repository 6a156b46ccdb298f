//! Connections that check heads, and the statuses of what they refuse.
use crate::compare::{assert_holds, assert_same};
use crate::requests::worker;
use bytes::Bytes;
use std::alloc::Global;
use std::hash::RandomState;
use std::process::Abort;
use web_body::Marks;
use web_extract::Ready;
use web_http1::{Connection, Ended, FeedError};
use web_messages::{
    HeadChecks, HeadFault, HeadRoom, LengthFault, Limits, Next, Wrong, next_message,
    next_message_with,
};
use web_request::{NoData, NoMemory, PlainApp};
use web_worker::{FnHandler, Worker};

type Site = PlainApp<Marks>;

/// Of few bytes and fields, so that they are passed soon.
fn limits(checks: HeadChecks) -> Limits {
    Limits {
        head: 60,
        headers: 2,
        checks,
        ..Limits::default()
    }
}

/// What the connection over these bytes writes, in pieces of so many, and how it ends.
fn written(
    rt: &impl Abort,
    alloc: Global,
    limits: Limits,
    bytes: &[u8],
    size: usize,
) -> (Ended, Vec<u8>) {
    let mut worker: Worker<Site> = worker(rt, alloc, NoData);
    let mut handler = FnHandler(|body: Bytes| -> Result<Ready<Bytes>, NoMemory> {
        Ok(Ready::new(body))
    });
    let mut connection = Connection::new(alloc, limits);
    let mut out = Vec::new(alloc);
    for piece in bytes.chunks(size) {
        connection.feed(alloc, piece).expect(rt, "memory");
        connection.answer(alloc, &mut worker, &mut handler, &mut out);
    }
    let ended = connection.finish(alloc, &mut out);
    (ended, out)
}

fn status_of(reply: &[u8]) -> &[u8] {
    let (_, status) = reply.split_at(9.min(reply.len()));
    let (status, _) = status.split_at(3.min(status.len()));
    status
}

/// Bytes, why they are refused where heads are checked, and by which status.
type CheckedRow = (&'static [u8], Wrong, &'static [u8]);

const MALFORMED: Wrong = Wrong::Head(HeadFault::Malformed);

const REFUSED: &[CheckedRow] = &[
    // Host.
    (b"GET / HTTP/1.1\r\n\r\n", MALFORMED, b"400"),
    (b"GET / HTTP/1.1\r\na: host\r\n\r\n", MALFORMED, b"400"),
    (
        b"GET / HTTP/1.1\r\nhost: a\r\nHOST: a\r\n\r\n",
        MALFORMED,
        b"400",
    ),
    (
        b"GET / HTTP/1.0\r\nhost: a\r\nhost: a\r\n\r\n",
        MALFORMED,
        b"400",
    ),
    // Targets.
    (b"GET /a#b HTTP/1.1\r\nhost: a\r\n\r\n", MALFORMED, b"400"),
    (b"GET /a# HTTP/1.1\r\nhost: a\r\n\r\n", MALFORMED, b"400"),
    (
        b"GET http://a/b HTTP/1.1\r\nhost: a\r\n\r\n",
        MALFORMED,
        b"400",
    ),
    (b"GET a HTTP/1.1\r\nhost: a\r\n\r\n", MALFORMED, b"400"),
    (b"GET * HTTP/1.1\r\nhost: a\r\n\r\n", MALFORMED, b"400"),
    (
        b"CONNECT a:1 HTTP/1.1\r\nhost: a\r\n\r\n",
        MALFORMED,
        b"400",
    ),
    // Versions.
    (
        b"GET / HTTP/2.0\r\nhost: a\r\n\r\n",
        Wrong::Head(HeadFault::Version),
        b"505",
    ),
    (
        b"PRI * HTTP/2.0\r\n\r\nSM\r\n\r\n",
        Wrong::Head(HeadFault::Version),
        b"505",
    ),
    (
        b"\r\nGET / HTTP/1.2\n\n",
        Wrong::Head(HeadFault::Version),
        b"505",
    ),
    (b"GET / HTTP/2\r\n\r\n", MALFORMED, b"400"),
    (b"GET / HTTP/1.1 \r\n\r\n", MALFORMED, b"400"),
    // Long targets.
    (
        b"GET /aaaaaaaaaabbbbbbbbbbccccccccccddddddddddeeeeeeeeeeffffffffff",
        Wrong::Head(HeadFault::Target),
        b"414",
    ),
    (
        b"\r\n\r\nGET /aaaaaaaaaabbbbbbbbbbccccccccccddddddddddeeee HTTP/1.1\r\n",
        Wrong::Head(HeadFault::Target),
        b"414",
    ),
    // Fields, of which there are too many, or too much.
    (
        b"GET / HTTP/1.1\r\nhost: a\r\nb: c\r\nd: e\r\n\r\n",
        Wrong::Head(HeadFault::Fields),
        b"431",
    ),
    (
        b"GET / HTTP/1.1\r\nhost: aaaaaaaaaabbbbbbbbbbccccccccccddddddddddeeee\r\n\r\n",
        Wrong::Head(HeadFault::Fields),
        b"431",
    ),
    // Other heads.
    (
        b"GET / HTTP/1.1\r\nhost: a\r\nb c\r\n\r\n",
        MALFORMED,
        b"400",
    ),
    (
        b"\x16\x03\x01\x02\x00\x01\x00\x01\xfc\x03\x03",
        MALFORMED,
        b"400",
    ),
    (b"GET / HTTP/1.1\r\nhost: a\r\n", MALFORMED, b"400"),
    // Codings.
    (
        b"POST / HTTP/1.1\r\nhost: a\r\ntransfer-encoding: gzip\r\n\r\n",
        Wrong::Length(LengthFault::Coding),
        b"501",
    ),
    (
        b"POST / HTTP/1.0\r\ntransfer-encoding: gzip, chunked\r\n\r\n",
        Wrong::Length(LengthFault::Coding),
        b"501",
    ),
    (
        b"POST / HTTP/1.0\r\ncontent-length: +1\r\n\r\na",
        Wrong::Length(LengthFault::Malformed),
        b"400",
    ),
];

#[test]
fn heads_are_checked_in_whatever_pieces(rt: HostRuntime) {
    let alloc = rt.alloc();
    for (bytes, wrong, status) in REFUSED {
        for size in [1, 2, 3, 7, 1024] {
            let limits = limits(HeadChecks::ALL);
            let (ended, out) = written(&rt, alloc, limits, bytes, size);
            assert_same(&rt, ended, Ended::Refused(*wrong));
            assert_same(&rt, status_of(out.as_slice()), *status);
        }
    }
}

/// The same refusal with a 400, or a reply, where heads are not checked.
#[test]
fn without_checks_a_reason_is_malformed(rt: HostRuntime) {
    let alloc = rt.alloc();
    for (bytes, wrong, _) in REFUSED {
        let (ended, out) = written(&rt, alloc, limits(HeadChecks::NONE), bytes, 1024);
        match ended {
            Ended::Refused(Wrong::Head(fault)) => assert_same(&rt, fault, HeadFault::Malformed),
            Ended::Refused(Wrong::Length(fault)) => {
                assert_same(&rt, fault, LengthFault::Malformed);
            }
            _ => {
                assert_same(&rt, *wrong, MALFORMED);
                assert_same(&rt, status_of(out.as_slice()), b"200".as_slice());
                continue;
            }
        }
        assert_same(&rt, status_of(out.as_slice()), b"400".as_slice());
    }
}

const TAKEN: &[&[u8]] = &[
    b"GET / HTTP/1.1\r\nhost: a\r\n\r\n",
    b"GET /?a=b HTTP/1.0\r\n\r\n",
    b"OPTIONS * HTTP/1.1\r\nhost: a\r\n\r\n",
    b"\r\n\r\nGET / HTTP/1.1\nHost:\n\n",
    b"GET / HTTP/1.1\r\nhost: a\r\nb: c\r\n\r\n",
];

#[test]
fn what_passes_the_checks_is_served(rt: HostRuntime) {
    let alloc = rt.alloc();
    for bytes in TAKEN {
        for size in [1, 5, 1024] {
            let (ended, out) = written(&rt, alloc, limits(HeadChecks::ALL), bytes, size);
            assert_same(&rt, ended, Ended::Closed);
            assert_same(&rt, status_of(out.as_slice()), b"200".as_slice());
        }
    }
}

#[test]
fn nothing_is_served_after_a_refusal(rt: HostRuntime) {
    let alloc = rt.alloc();
    let bytes = b"GET / HTTP/2.0\r\n\r\nGET / HTTP/1.1\r\nhost: a\r\n\r\n";
    let (_, alone) = written(&rt, alloc, limits(HeadChecks::ALL), &bytes[..18], 1024);
    let (ended, out) = written(&rt, alloc, limits(HeadChecks::ALL), bytes, 1024);
    assert_same(&rt, ended, Ended::Refused(Wrong::Head(HeadFault::Version)));
    assert_same(&rt, out.as_slice(), alone.as_slice());
}

/// The same target, as it is read by a connection that takes these bytes as browsers send them.
#[test]
fn delimiters_of_targets_are_encoded(rt: HostRuntime) {
    let alloc = rt.alloc();
    let bytes = b"GET /a?b=\"<c>\"&d=%3C HTTP/1.1\r\nhost: a\r\n\r\n".as_slice();
    let checks = HeadChecks {
        encode: true,
        ..HeadChecks::NONE
    };
    match next_message(alloc, &limits(checks), bytes).expect(&rt, "memory") {
        Next::Message(message) => {
            assert_same(&rt, message.uri.query(), Some("b=%22%3Cc%3E%22&d=%3C"));
            assert_same(&rt, message.used, bytes.len());
        }
        Next::Refused(_) | Next::Closed => assert_holds(&rt, "a message", false),
    }
    let (ended, _) = written(&rt, alloc, limits(HeadChecks::NONE), bytes, 1024);
    assert_same(
        &rt,
        ended,
        Ended::Refused(Wrong::Head(HeadFault::Malformed)),
    );
}

/// How many bytes are kept of chunks of one byte, each in 259 bytes, until no more are taken.
#[test]
fn no_more_bytes_are_kept_than_the_limit(rt: HostRuntime) {
    let alloc = rt.alloc();
    let limits = Limits {
        kept: 2_000,
        ..Limits::for_untrusted()
    };
    let mut connection = Connection::new(alloc, limits);
    let mut worker: Worker<Site> = worker(&rt, alloc, NoData);
    let mut handler = FnHandler(|body: Bytes| -> Result<Ready<Bytes>, NoMemory> {
        Ok(Ready::new(body))
    });
    let mut out = Vec::new(alloc);
    let mut chunk = vec![in alloc; b'1', b';'].expect(&rt, "memory");
    chunk.resize(254, b'x').expect(&rt, "memory");
    chunk.extend_from_slice(b"\r\na\r\n").expect(&rt, "memory");
    let head = b"POST / HTTP/1.1\r\nhost: a\r\ntransfer-encoding: chunked\r\n\r\n";
    connection.feed(alloc, head).expect(&rt, "memory");
    let mut taken = 0;
    while connection.feed(alloc, chunk.as_slice()).is_ok() {
        connection.answer(alloc, &mut worker, &mut handler, &mut out);
        taken += 1;
    }
    assert_same(&rt, taken, (2_000 - head.len()) / chunk.len());
    assert_same(&rt, connection.kept(), head.len() + taken * chunk.len());
    let none = connection.take(alloc, &mut worker, &mut handler, chunk.as_slice(), &mut out);
    assert_same(&rt, none, Err(FeedError::TooMuchKept));
    let ended = connection.finish(alloc, &mut out);
    assert_same(&rt, ended, Ended::Refused(Wrong::Cut));
    assert_same(&rt, status_of(out.as_slice()), b"400".as_slice());
}

/// Messages in turn, with names that many maps would put in one place, by zero keys and by others.
#[test]
fn keys_change_nothing_that_is_read(rt: HostRuntime) {
    let alloc = rt.alloc();
    let mut bytes = Vec::new(alloc);
    for _ in 0..3 {
        bytes
            .extend_from_slice(b"GET / HTTP/1.1\r\n")
            .expect(&rt, "memory");
        for n in 0..90u8 {
            let name = [b'a' + n % 26, b'a' + n / 26, b':', b'\r', b'\n'];
            bytes.extend_from_slice(&name).expect(&rt, "memory");
        }
        bytes
            .extend_from_slice(b"host:a\r\n\r\n")
            .expect(&rt, "memory");
    }
    let limits = Limits::for_untrusted();
    let keys = RandomState::new(&rt).expect(&rt, "keys");
    let mut keyed = HeadRoom::with_keys(alloc, keys);
    let mut rest = bytes.as_slice();
    let mut count = 0;
    while !rest.is_empty() {
        let plain = next_message(alloc, &limits, rest).expect(&rt, "memory");
        let other = next_message_with(alloc, &limits, rest, &mut keyed).expect(&rt, "memory");
        let (Next::Message(plain), Next::Message(other)) = (plain, other) else {
            assert_holds(&rt, "messages", false);
            return;
        };
        assert_same(&rt, plain.used, other.used);
        assert_same(&rt, plain.headers.len(), 91);
        assert_holds(&rt, "the same fields", plain.headers == other.headers);
        let (_, after) = rest.split_at(plain.used);
        rest = after;
        count += 1;
    }
    assert_same(&rt, count, 3);
}

#[test]
fn the_limits_for_untrusted_clients_check_heads(rt: HostRuntime) {
    let limits = Limits::for_untrusted();
    assert_same(&rt, limits.checks, HeadChecks::ALL);
    assert_same(&rt, Limits::default().checks, HeadChecks::default());
    assert_same(
        &rt,
        (limits.head, limits.headers, limits.body),
        (8_192, 100, 65_536),
    );
}
