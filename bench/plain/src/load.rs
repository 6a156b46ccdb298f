//! Scripts of a load, drawn from a seed, and the summary of serving one.
use crate::serving::{Flight, Stage};
use crate::text::{number, put_line, put_number};
use std::collections::BTreeMap;

/// The most exchanges of a load.
const MAX_COUNT: u64 = 50_000;

/// What a load is made of.
pub struct Load {
    seed: u64,
    count: u64,
}

impl Load {
    /// A load of a seed and a count of 1 to 50,000, both in digits.
    pub fn read(seed: &str, count: &str) -> Option<Load> {
        let seed = number(seed.as_bytes(), u64::MAX)?;
        let count = number(count.as_bytes(), MAX_COUNT)?;
        (count > 0).then_some(Load { seed, count })
    }

    /// The script: the exchanges, each with up to two stalls, and two rounds of the plan.
    pub fn script(&self) -> Vec<u8> {
        let mut out = Vec::with_capacity(self.count as usize * 132);
        let mut state = self.seed;
        for _ in 0..self.count {
            state = state
                .wrapping_mul(6_364_136_223_846_793_005)
                .wrapping_add(1_442_695_040_888_963_407);
            put_exchange(&mut out, state >> 33);
        }
        let start = out.len();
        for place in 0..self.count {
            out.extend_from_slice(b"plan ");
            put_number(&mut out, place);
            out.push(b'\n');
        }
        out.extend_from_within(start..);
        out
    }
}

/// An exchange, by the number that was drawn for it.
fn put_exchange(out: &mut Vec<u8>, draw: u64) {
    let (head, end): (&[u8], &[u8]) = match draw % 3 {
        0 => (b"exchange POST /bytes\ntext v\n", b"\n"),
        1 => (
            b"exchange POST /json\nheader content-type application/json\ntext {\"name\":\"x\",\"n\":\n",
            b"}\n",
        ),
        _ => (
            b"exchange POST /form\nheader content-type application/x-www-form-urlencoded\ntext name=x&n=\n",
            b"\n",
        ),
    };
    out.extend_from_slice(head);
    out.extend_from_slice(match draw / 3 % 3 {
        0 => b"text ",
        1 => b"stall\ntext ",
        _ => b"stall\nstall\ntext ",
    });
    put_number(out, draw / 9 % 1000);
    out.extend_from_slice(end);
}

/// What became of the exchanges of a script of so many bytes.
pub fn summary(script_len: usize, flights: &[Flight<'_>], made: u64) -> Vec<u8> {
    let mut unfinished = 0;
    let mut statuses = BTreeMap::new();
    for flight in flights {
        match &flight.stage {
            Stage::Answered(reply) => *statuses.entry(u64::from(reply.status)).or_insert(0) += 1,
            _ => unfinished += 1,
        }
    }
    let mut out = Vec::new();
    put_line(&mut out, b"script ", script_len as u64);
    put_line(&mut out, b"exchanges ", flights.len() as u64);
    put_line(&mut out, b"unfinished ", unfinished);
    for (status, count) in statuses {
        out.extend_from_slice(b"status ");
        put_number(&mut out, status);
        put_line(&mut out, b" ", count);
    }
    put_line(&mut out, b"made ", made);
    out
}
