//! Scripts of a load, drawn from a seed, and the summary of serving one.
use crate::response::Response;
use crate::text::{number, put_line, put_number};
use std::collections::BTreeMap;

/// The most exchanges of a load.
const MOST_COUNT: u64 = 50_000;

/// What a load is made of.
pub struct Load {
    seed: u64,
    count: u64,
}

impl Load {
    /// A load of a seed and a count of 1 to 50,000, both in digits.
    pub fn read(seed: &str, count: &str) -> Option<Load> {
        let seed = number(seed.as_bytes(), u64::MAX)?;
        let count = number(count.as_bytes(), MOST_COUNT).filter(|count| *count > 0)?;
        Some(Load { seed, count })
    }

    /// The script: the exchanges, each with up to two stalls, and two rounds of the plan.
    pub fn script(&self) -> Vec<u8> {
        let mut out = Vec::with_capacity(self.count as usize * 132);
        let mut state = self.seed;
        for _ in 0..self.count {
            state = state
                .wrapping_mul(6_364_136_223_846_793_005)
                .wrapping_add(1_442_695_040_888_963_407);
            put_exchange(&mut out, state >> 33);
        }
        let plan = out.len();
        for place in 0..self.count {
            put_line(&mut out, b"plan ", place);
        }
        out.extend_from_within(plan..);
        out
    }
}

/// An exchange, by the number that was drawn for it.
fn put_exchange(out: &mut Vec<u8>, draw: u64) {
    let (start, end) = match draw % 3 {
        0 => ("bytes\ntext v\n", "\n"),
        1 => (
            "json\nheader content-type application/json\ntext {\"name\":\"x\",\"n\":\n",
            "}\n",
        ),
        _ => (
            "form\nheader content-type application/x-www-form-urlencoded\ntext name=x&n=\n",
            "\n",
        ),
    };
    let stalls = ["", "stall\n", "stall\nstall\n"][(draw / 3 % 3) as usize];
    for part in ["exchange POST /", start, stalls, "text "] {
        out.extend_from_slice(part.as_bytes());
    }
    put_number(out, draw / 9 % 1_000);
    out.extend_from_slice(end.as_bytes());
}

/// What became of the exchanges of a script of so many bytes.
pub fn summary(length: usize, replies: &[Option<Response>], made: u64) -> Vec<u8> {
    let mut statuses = BTreeMap::new();
    for response in replies.iter().flatten() {
        *statuses.entry(response.status.as_u16()).or_insert(0) += 1;
    }
    let unfinished = replies.iter().filter(|reply| reply.is_none()).count();
    let mut out = Vec::new();
    put_line(&mut out, b"script ", length as u64);
    put_line(&mut out, b"exchanges ", replies.len() as u64);
    put_line(&mut out, b"unfinished ", unfinished as u64);
    for (status, count) in statuses {
        out.extend_from_slice(b"status ");
        put_number(&mut out, u64::from(status));
        put_line(&mut out, b" ", count);
    }
    put_line(&mut out, b"made ", made);
    out
}
