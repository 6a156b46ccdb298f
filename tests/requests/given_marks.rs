//! A source of marks that stand in a table.
ghost use Rattle.std.specs.Prelude.{◌≡◌, ◌+◌, ◌<◌, IfSome, length};

use bytes::Bytes;
use web_request::{Source, Turn};

/// A mark of a body.
#[derive(Clone, Copy)]
pub(crate) enum Given {
    Piece(&'static [u8]),
    Stall,
    Fault,
}

/// Gives marks in their order, and states none of them. It ends at an empty piece, after a fault,
/// and where the pieces total more than 4 GB.
#[derive(Drop)]
pub(crate) struct GivenMarks {
    left: &'static [Given],
    faults: u64,
    stalls: u64,
    given: u32,
}

impl GivenMarks {
    pub(crate) fn new(marks: &'static [Given]) -> GivenMarks {
        GivenMarks {
            left: marks,
            faults: 0,
            stalls: 0,
            given: 0,
        }
    }
}

impl Source for GivenMarks {
    ghost use Rattle.std.specs.Prelude.{None, length};

    ghost feed = { λ s. record {
      marks = None;
      faults = s.faults;
      stalls = s.stalls;
      given = s.given;
      answers = length s.left.now;
    } };

    fn next(&mut self) -> Turn {
        let given = self.given;
        let Some((mark, rest)) = self.left.split_first() else {
            return Turn::End;
        };
        self.left = rest;
        match mark {
            Given::Stall => {
                self.stalls = self.stalls.saturating_add(1);
                Turn::Stall
            }
            Given::Fault => {
                self.left = &[];
                self.faults = self.faults.saturating_add(1);
                Turn::Fault
            }
            Given::Piece(piece) => match total(given, piece) {
                Some(sum) => {
                    self.given = sum;
                    Turn::Piece(Bytes::from_static(piece))
                }
                None => {
                    self.left = &[];
                    Turn::End
                }
            },
        }
    }
}

/// How many bytes were given with this piece. There is no number after an empty one, or where they
/// are too many.
fn total(given: u32, piece: &[u8]) -> Option<u32> {
    if piece.is_empty() {
        return None;
    }
    let size = u32::try_from(piece.len()).ok()?;
    given.checked_add(size)
}
