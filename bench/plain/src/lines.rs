//! The lines of a body.
use crate::body;
use crate::reply::Refusal;
use crate::request::Request;
use crate::script::{self, Mark};

/// Lines that are being read.
pub struct Lines<'a> {
    marks: std::vec::IntoIter<Mark<'a>>,
    /// What came after the last newline.
    rest: Vec<u8>,
    /// The lines so far, with bars between.
    text: Vec<u8>,
    has_lines: bool,
    limit: u64,
    is_readable: bool,
}

impl<'a> Lines<'a> {
    pub fn of(request: &Request<'_>, marks: &mut Vec<Mark<'a>>) -> Lines<'a> {
        Lines {
            marks: std::mem::take(marks).into_iter(),
            rest: Vec::new(),
            text: Vec::new(),
            has_lines: false,
            limit: request.number("limit", u64::MAX).unwrap_or(262_144),
            is_readable: body::test_charset(request).is_ok(),
        }
    }

    /// Takes the marks up to the next stall, or to the answer.
    pub fn poll(&mut self) -> Option<Result<Vec<u8>, Refusal>> {
        if !self.is_readable {
            return Some(Err(Refusal::of(400, "Content-type error")));
        }
        loop {
            match self.marks.next() {
                Some(Mark::Text(piece)) => self.rest.extend_from_slice(piece),
                Some(Mark::Piece(digits)) => script::decode_into(&mut self.rest, digits),
                Some(Mark::Stall) => return None,
                Some(Mark::Fault) => {
                    let text = "Error that occur during reading payload: payload read failed";
                    return Some(Err(Refusal::of(400, text)));
                }
                None => {
                    let last = std::mem::take(&mut self.rest);
                    if !last.is_empty()
                        && let Err(refusal) = self.add(&last)
                    {
                        return Some(Err(refusal));
                    }
                    return Some(Ok(std::mem::take(&mut self.text)));
                }
            }
            if let Err(refusal) = self.take_lines() {
                return Some(Err(refusal));
            }
        }
    }

    /// Takes the lines that have ended.
    fn take_lines(&mut self) -> Result<(), Refusal> {
        let came = std::mem::take(&mut self.rest);
        let mut rest = came.as_slice();
        while let Some(at) = rest.iter().position(|byte| *byte == b'\n') {
            let (line, behind) = rest.split_at(at + 1);
            self.add(line)?;
            rest = behind;
        }
        self.test_length(rest)?;
        self.rest = rest.to_vec();
        Ok(())
    }

    fn test_length(&self, line: &[u8]) -> Result<(), Refusal> {
        if line.len() as u64 > self.limit {
            return Err(Refusal::of(413, "Line limit exceeded"));
        }
        Ok(())
    }

    fn add(&mut self, line: &[u8]) -> Result<(), Refusal> {
        self.test_length(line)?;
        if std::str::from_utf8(line).is_err() {
            return Err(Refusal::of(400, "Encoding error"));
        }
        if self.has_lines {
            self.text.push(b'|');
        }
        self.has_lines = true;
        self.text
            .extend_from_slice(line.strip_suffix(b"\n").unwrap_or(line));
        Ok(())
    }
}
