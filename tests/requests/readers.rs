//! Bodies that a reader gives.
use crate::bodies::{assert_collected, value_of};
use crate::compare::assert_same;
use std::io;
use std::io::{Error, ErrorKind, Read};
use std::process::Abort;
use web_body::{Payload, PayloadError, ReadSource};
use web_request::{Source, Turn};

/// Gives one byte at each call, fails at the call of this number, counted from 1, and ends at the
/// fourth.
#[derive(Drop)]
struct Letters {
    calls: u8,
    fails_at: u8,
}

fn failing_at(fails_at: u8) -> Letters {
    Letters { calls: 0, fails_at }
}

impl Read for Letters {
    fn read(&mut self, buf: &mut [u8]) -> io::Result<usize> {
        self.calls = self.calls.saturating_add(1);
        if self.calls == self.fails_at {
            return Err(Error::from(ErrorKind::Other));
        }
        match buf.first_mut() {
            Some(first) if self.calls < 4 => {
                *first = b'a';
                Ok(1)
            }
            _ => Ok(0),
        }
    }
}

fn name_of(turn: &Turn) -> &'static str {
    match turn {
        Turn::Piece(_) => "piece",
        Turn::Stall => "stall",
        Turn::Fault => "fault",
        Turn::End => "end",
        Turn::NoMemory => "no memory",
    }
}

/// The call that fails, the turns that there are, and what six calls give.
const READERS: &[(u8, u8, [&str; 6])] = &[
    (0, 9, ["piece", "piece", "piece", "end", "end", "end"]),
    (0, 4, ["piece", "piece", "piece", "end", "end", "end"]),
    (0, 3, ["piece", "piece", "piece", "fault", "end", "end"]),
    (2, 9, ["piece", "fault", "end", "end", "end", "end"]),
    (0, 1, ["piece", "fault", "end", "end", "end", "end"]),
    (0, 0, ["fault", "end", "end", "end", "end", "end"]),
];

#[test]
fn a_reader_fails_or_its_turns_run_out(rt: HostRuntime) {
    for (fails_at, turns, expected) in READERS {
        let mut source = ReadSource::new(rt.alloc(), failing_at(*fails_at), u64::from(*turns));
        for name in expected {
            assert_same(&rt, name_of(&source.next()), *name);
        }
    }
}

/// The turns that there are, and the body that comes of three bytes.
const BODIES: &[(u8, Result<&[u8], PayloadError>)] = &[
    (9, Ok(b"aaa")),
    (4, Ok(b"aaa")),
    (3, Err(PayloadError::Io)),
    (1, Err(PayloadError::Io)),
];

#[test]
fn a_body_that_was_cut_short_is_not_whole(rt: HostRuntime) {
    let alloc = rt.alloc();
    for (turns, expected) in BODIES {
        let source = ReadSource::new(alloc, failing_at(0), u64::from(*turns));
        let found = value_of(&rt, alloc, Payload::Stream(source).to_bytes(alloc));
        assert_collected(&rt, found, (0, *expected));
    }
}
