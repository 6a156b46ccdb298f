//! The lines of a body.
use crate::extract;
use crate::refusal::{JsonError, PayloadError, Refusal};
use crate::request::Request;
use crate::script::Mark;
use http::StatusCode;
use std::task::Poll;

/// Lines that are being read.
pub struct Lines {
    marks: std::vec::IntoIter<Mark>,
    /// What came after the last newline.
    rest: Vec<u8>,
    /// The lines so far, with bars between.
    text: String,
    has_lines: bool,
    limit: u64,
    is_readable: bool,
}

impl Lines {
    pub fn new(request: &Request, marks: Vec<Mark>) -> Lines {
        Lines {
            marks: marks.into_iter(),
            rest: Vec::new(),
            text: String::new(),
            has_lines: false,
            limit: request.number("limit", u64::MAX).unwrap_or(262_144),
            is_readable: extract::is_readable(request),
        }
    }

    /// Takes the marks up to the next stall, or to the answer.
    pub fn poll(&mut self) -> Poll<Result<String, Refusal>> {
        if !self.is_readable {
            return Poll::Ready(Err(Refusal::bad_request("Content-type error")));
        }
        loop {
            match self.marks.next() {
                Some(Mark::Piece(piece)) => {
                    if let Err(refusal) = self.take(&piece) {
                        return Poll::Ready(Err(refusal));
                    }
                }
                Some(Mark::Stall) => return Poll::Pending,
                Some(Mark::Fault) => {
                    let error = JsonError::Payload(PayloadError::Failed);
                    return Poll::Ready(Err(error.into()));
                }
                None => {
                    let last = std::mem::take(&mut self.rest);
                    let added = if last.is_empty() {
                        Ok(())
                    } else {
                        self.add(&last)
                    };
                    return Poll::Ready(added.map(|()| std::mem::take(&mut self.text)));
                }
            }
        }
    }

    /// Takes the lines that end in this piece, and keeps what stands after them.
    fn take(&mut self, mut piece: &[u8]) -> Result<(), Refusal> {
        while let Some(end) = memchr::memchr(b'\n', piece) {
            let (line, behind) = piece.split_at(end + 1);
            piece = behind;
            if self.rest.is_empty() {
                self.add(line)?;
            } else {
                let mut whole = std::mem::take(&mut self.rest);
                whole.extend_from_slice(line);
                self.add(&whole)?;
                whole.clear();
                self.rest = whole;
            }
        }
        self.rest.extend_from_slice(piece);
        self.test_length(&self.rest)
    }

    fn test_length(&self, line: &[u8]) -> Result<(), Refusal> {
        if line.len() as u64 > self.limit {
            let status = StatusCode::PAYLOAD_TOO_LARGE;
            return Err(Refusal::new(status, "Line limit exceeded"));
        }
        Ok(())
    }

    fn add(&mut self, line: &[u8]) -> Result<(), Refusal> {
        self.test_length(line)?;
        let line = std::str::from_utf8(line);
        let line = line.map_err(|_| Refusal::bad_request("Encoding error"))?;
        if self.has_lines {
            self.text.push('|');
        }
        self.has_lines = true;
        self.text.push_str(line.strip_suffix('\n').unwrap_or(line));
        Ok(())
    }
}
