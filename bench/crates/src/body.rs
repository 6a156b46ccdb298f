//! Bodies, whose marks are read under a limit.
use crate::script::Mark;
use bytes::{Bytes, BytesMut};
use std::task::Poll;

/// A body that is being collected.
pub struct Collect {
    marks: std::vec::IntoIter<Mark>,
    came: BytesMut,
    limit: u64,
}

/// Why there is no body.
pub enum Unread {
    /// So many bytes had come when it passed the limit.
    TooLong(u64),
    Failed,
}

impl Collect {
    pub fn new(marks: Vec<Mark>, limit: u64) -> Collect {
        Collect {
            marks: marks.into_iter(),
            came: BytesMut::new(),
            limit,
        }
    }

    pub fn limit(&self) -> u64 {
        self.limit
    }

    /// Takes the marks up to the next stall, or to the answer.
    pub fn poll(&mut self) -> Poll<Result<Bytes, Unread>> {
        loop {
            match self.marks.next() {
                Some(Mark::Piece(piece)) => {
                    let length = (self.came.len() + piece.len()) as u64;
                    if length > self.limit {
                        return Poll::Ready(Err(Unread::TooLong(length)));
                    }
                    self.came.extend_from_slice(&piece);
                }
                Some(Mark::Stall) => return Poll::Pending,
                Some(Mark::Fault) => return Poll::Ready(Err(Unread::Failed)),
                None => return Poll::Ready(Ok(self.came.split().freeze())),
            }
        }
    }
}
