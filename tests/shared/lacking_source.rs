//! A source that lacks memory.
use bytes::Bytes;
use web_body::Payload;
use web_request::{Source, Turn};

/// Gives this text, lacks memory for what follows, and then ends.
#[derive(Drop)]
pub(crate) struct LackingSource {
    text: &'static str,
    calls: u8,
}

impl LackingSource {
    pub(crate) fn new(text: &'static str) -> LackingSource {
        LackingSource { text, calls: 0 }
    }

    /// A body of such a source.
    pub(crate) fn payload(text: &'static str) -> Payload<LackingSource> {
        Payload::Stream(LackingSource::new(text))
    }
}

impl Source for LackingSource {
    ghost use Rattle.std.specs.Prelude.{None, false};

    ghost feed = { λ s. record {
      marks = None;
      faults = 0;
      stalls = 0;
      given = 0;
      answers = 0;
      lacked = false;
    } };

    fn next(&mut self) -> Turn {
        self.calls = self.calls.saturating_add(1);
        match self.calls {
            1 => Turn::Piece(Bytes::from_static(self.text.as_bytes())),
            2 => Turn::NoMemory,
            _ => Turn::End,
        }
    }
}
