//! What collectors hold while they wait, and how often they ask their source.
use crate::bodies::{assert_collected, value_of};
use crate::compare::assert_same;
use crate::requests::new_request;
use bytes::Bytes;
use std::alloc::Global;
use std::cell::Cell;
use std::process::Abort;
use std::rc::Rc;
use web_body::{HttpMessageBody, Marks, Payload, Poll, Step};
use web_request::{Mark, Source, Turn};

/// `ab`, a stall, `cd`, a stall.
fn ab_and_cd(rt: &impl Abort, alloc: Global) -> Marks {
    let marks = vec![in alloc;
        Mark::Piece(Bytes::from_static(b"ab")),
        Mark::Stall,
        Mark::Piece(Bytes::from_static(b"cd")),
        Mark::Stall,
    ];
    Marks::new(marks.expect(rt, "memory"))
}

/// Polls a body that waits, and compares what it then holds.
fn assert_waits<S: Source>(
    rt: &impl Abort,
    alloc: Global,
    body: &mut HttpMessageBody<S>,
    held: usize,
) {
    assert!(rt; !body.finished());
    assert!(rt; matches!(body.poll(alloc), Step::Pending));
    assert_same(rt, body.buffered(), held);
}

#[test]
fn what_came_is_held_at_each_stall(rt: HostRuntime) {
    let alloc = rt.alloc();
    let request = new_request(&rt, alloc, "/bytes");
    let mut payload = Payload::Stream(ab_and_cd(&rt, alloc));
    let mut body = HttpMessageBody::new(alloc, &request, &mut payload).limit(4);
    assert_same(&rt, body.buffered(), 0);
    assert_waits(&rt, alloc, &mut body, 2);
    assert_waits(&rt, alloc, &mut body, 4);
    assert_collected(&rt, value_of(&rt, alloc, body), (0, Ok(b"abcd")));
}

/// A source that counts its calls.
#[derive(Drop)]
struct Counted {
    marks: Marks,
    calls: Rc<Cell<u32>>,
}

impl Source for Counted {
    ghost feed = { λ c. c.marks };

    fn next(&mut self) -> Turn {
        self.calls.set(self.calls.get().saturating_add(1));
        self.marks.next()
    }
}

/// How often a body asks its source up to its value, under this limit.
fn calls_under(rt: &impl Abort, alloc: Global, limit: usize) -> u32 {
    let calls = Rc::new(alloc, Cell::new(0)).expect(rt, "memory");
    let source = Counted {
        marks: ab_and_cd(rt, alloc),
        calls: calls.clone().expect(rt, "memory"),
    };
    let body = Payload::Stream(source).to_bytes_limited(alloc, limit);
    let _ = value_of(rt, alloc, body);
    calls.get()
}

/// Limits, and the calls up to the piece that passes the limit, or to the end.
const CALLS: &[(usize, u32)] = &[(0, 1), (1, 1), (2, 3), (3, 3), (4, 5)];

#[test]
fn no_piece_after(rt: HostRuntime) {
    for (limit, calls) in CALLS {
        assert_same(&rt, calls_under(&rt, rt.alloc(), *limit), *calls);
    }
}

/// A piece that is shared where it is held, and more than a small one.
const LARGE: &[u8] = &[b'x'; 300];

/// Small pieces and large ones by turns.
fn small_and_large(rt: &impl Abort, alloc: Global) -> Marks {
    let marks = vec![in alloc;
        Mark::Piece(Bytes::from_static(b"a")),
        Mark::Piece(Bytes::from_static(b"bc")),
        Mark::Piece(Bytes::from_static(LARGE)),
        Mark::Stall,
        Mark::Piece(Bytes::from_static(LARGE)),
        Mark::Piece(Bytes::from_static(b"d")),
        Mark::Piece(Bytes::from_static(b"ef")),
    ];
    Marks::new(marks.expect(rt, "memory"))
}

/// `abc`, the large piece twice, `def`.
fn joined(rt: &impl Abort, alloc: Global) -> Vec<u8> {
    let mut bytes = Vec::new(alloc);
    for part in [b"abc".as_slice(), LARGE, LARGE, b"def".as_slice()] {
        bytes.extend_from_slice(part).expect(rt, "memory");
    }
    bytes
}

#[test]
fn small_and_large_pieces_are_joined_in_order(rt: HostRuntime) {
    let alloc = rt.alloc();
    let body = Payload::Stream(small_and_large(&rt, alloc)).to_bytes(alloc);
    let expected = joined(&rt, alloc);
    assert_collected(
        &rt,
        value_of(&rt, alloc, body),
        (1, Ok(expected.as_slice())),
    );
}
