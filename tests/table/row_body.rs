//! A body that a field of a row says: bytes, and marks among them.
use bytes::Bytes;
use std::alloc::Global;
use std::collections::VecDeque;
use std::mem;
use web_body::Mark;
use web_request::{Source, Turn};
use web_texts::NoMemory;

/// Ends a piece.
const CUT: char = '│';

/// Ends a piece, and stands for a stall.
const STALL: char = '…';

/// Ends a piece, and stands for a fault.
const FAULT: char = '✗';

/// Gives marks in their order, and states none of them. It ends after a fault, and where the
/// pieces total more than 4 GB.
#[derive(Drop)]
pub(crate) struct RowBody {
    left: VecDeque<Mark>,
    faults: u64,
    stalls: u64,
    given: u32,
}

impl Source for RowBody {
    ghost use Rattle.std.specs.Prelude.{None, length};

    ghost feed = { λ s. record {
      marks = None;
      faults = s.faults;
      stalls = s.stalls;
      given = s.given;
      answers = length s.left.items;
    } };

    fn next(&mut self) -> Turn {
        let given = self.given;
        match self.left.pop_front() {
            None => Turn::End,
            Some(Mark::Stall) => {
                self.stalls = self.stalls.saturating_add(1);
                Turn::Stall
            }
            Some(Mark::Fault) => {
                self.left.clear();
                self.faults = self.faults.saturating_add(1);
                Turn::Fault
            }
            Some(Mark::Piece(bytes)) => match total(given, bytes.len()) {
                Some(sum) => {
                    self.given = sum;
                    Turn::Piece(bytes)
                }
                None => {
                    self.left.clear();
                    Turn::End
                }
            },
        }
    }
}

/// How many bytes were given with a piece of this size. There is no number after an empty one, or
/// where they are too many.
fn total(given: u32, size: usize) -> Option<u32> {
    if size == 0 {
        return None;
    }
    let size = u32::try_from(size).ok()?;
    given.checked_add(size)
}

/// The body that a text says. A character up to `ÿ` stands for its byte; `│` ends a piece, and so
/// do `…`, which is a stall, and `✗`, which is a fault.
pub(crate) fn body_of(alloc: Global, text: &str) -> Result<RowBody, NoMemory> {
    let mut left = VecDeque::new(alloc);
    let mut piece = Vec::new(alloc);
    for char in text.chars() {
        match u8::try_from(u32::from(char)) {
            Ok(byte) => piece.push(byte)?,
            Err(_) => {
                let bytes = mem::replace(&mut piece, Vec::new(alloc));
                add_piece(&mut left, bytes)?;
                add_mark(&mut left, char)?;
            }
        }
    }
    add_piece(&mut left, piece)?;
    Ok(RowBody {
        left,
        faults: 0,
        stalls: 0,
        given: 0,
    })
}

/// The bytes that a text says, in which a character up to `ÿ` stands for its byte. Others are left
/// out.
pub(crate) fn bytes_of(alloc: Global, text: &str) -> Result<Vec<u8>, NoMemory> {
    let mut bytes = Vec::new(alloc);
    for char in text.chars() {
        if let Ok(byte) = u8::try_from(u32::from(char)) {
            bytes.push(byte)?;
        }
    }
    Ok(bytes)
}

/// Adds a piece, unless it is empty.
fn add_piece(left: &mut VecDeque<Mark>, bytes: Vec<u8>) -> Result<(), NoMemory> {
    if bytes.is_empty() {
        return Ok(());
    }
    let piece = Bytes::from_vec(bytes)?;
    left.push_back(Mark::Piece(piece))?;
    Ok(())
}

/// Adds the mark that a character stands for. What stands for none cuts, as `CUT` does.
fn add_mark(left: &mut VecDeque<Mark>, char: char) -> Result<(), NoMemory> {
    match char {
        STALL => left.push_back(Mark::Stall)?,
        FAULT => left.push_back(Mark::Fault)?,
        _ => {}
    }
    Ok(())
}
