//! A value that is read from every body, and what a poll gives.
use serde_json::Value;
use std::alloc::Global;
use std::fmt::Display;
use std::process::Abort;
use web_body::{Marks, Payload, Poll, Step};
use web_codec::{ReadFault, ReadJson, ReadPairs};
use web_texts::{Fail, Pair};

/// A value of every body.
#[derive(Clone, Copy, Debug)]
pub(crate) struct Anything;

impl ReadJson for Anything {
    ghost use Rattle.std.specs.Prelude.{⊤};

    ghost reads = { λ d x. ⊤ };

    fn read_json(_alloc: Global, _value: &Value) -> Result<Anything, Fail<ReadFault>> {
        Ok(Anything)
    }
}

impl ReadPairs for Anything {
    ghost use Rattle.std.specs.Prelude.{⊤};

    ghost reads_pairs = { λ pairs x. ⊤ };

    fn read_pairs(_alloc: Global, _pairs: &[Pair]) -> Result<Anything, Fail<ReadFault>> {
        Ok(Anything)
    }
}

/// The text of the error that the first poll gives, or `read`.
pub(crate) fn first_text<E: Display + Drop, P: Poll<Output = Result<Anything, E>>>(
    rt: &impl Abort,
    alloc: Global,
    body: P,
) -> String {
    let mut body = body;
    match body.poll(alloc) {
        Step::Ready(Ok(_)) => String::from_str(alloc, "read").expect(rt, "memory"),
        Step::Ready(Err(error)) => error.to_string(alloc).expect(rt, "memory"),
        Step::Pending => String::from_str(alloc, "pending").expect(rt, "memory"),
        Step::NoMemory => String::from_str(alloc, "no memory").expect(rt, "memory"),
    }
}

/// Compares that text, and whether the payload is left.
pub(crate) fn assert_text(
    rt: &impl Abort,
    found: &str,
    payload: &Payload<Marks>,
    expected: (&str, bool),
) {
    let is_left = !matches!(payload, Payload::None);
    assert_eq!(rt; (found, is_left), expected);
}
