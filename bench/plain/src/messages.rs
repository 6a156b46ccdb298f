//! Messages of HTTP/1.1: a head, and a body of a length or in chunks (RFC 7230).
use crate::headers::is_header_text;
use crate::request::{self, Request};
use crate::text::{self, find, hex_value, trimmed};
use std::borrow::Cow;

/// The most bytes of a head, with the empty lines before it.
const MOST_HEAD: usize = 16_384;
const MOST_FIELDS: usize = 64;
/// The most bytes of a body.
const MOST_BODY: u64 = 1_048_576;
/// The most bytes of a size line, with its end, and the most digits of the size.
const MOST_SIZE_LINE: usize = 256;
const MOST_DIGITS: usize = 8;
/// The most bytes of all trailer lines, with their ends.
const MOST_TRAILERS: usize = 16_384;

pub struct Message<'a> {
    pub request: Request<'a>,
    /// Its version is HTTP/1.0.
    pub is_old: bool,
    /// One chunk alone is not copied.
    pub body: Cow<'a, [u8]>,
    /// What follows it.
    pub rest: &'a [u8],
}

/// What stands before a body.
struct Head<'a> {
    request: Request<'a>,
    is_old: bool,
    /// How many bytes it has.
    length: usize,
}

/// Why a message is refused.
pub enum Wrong {
    /// It is malformed, or cut.
    Malformed,
    /// Its body is longer than any may be.
    TooLarge,
}

/// What a head says of the length of the body.
enum Framing {
    Length(u64),
    Chunked,
}

/// The next message, `None` where nothing but line ends is left.
pub fn next(bytes: &[u8]) -> Result<Option<Message<'_>>, Wrong> {
    if bytes.iter().all(|byte| matches!(byte, b'\r' | b'\n')) {
        return Ok(None);
    }
    let front = &bytes[..bytes.len().min(MOST_HEAD)];
    let head = read_head(front).ok_or(Wrong::Malformed)?;
    let behind = &bytes[head.length..];
    let (body, rest) = match framing(&head.request).ok_or(Wrong::Malformed)? {
        Framing::Length(length) if length > MOST_BODY => return Err(Wrong::TooLarge),
        Framing::Length(length) => {
            let cut = behind.split_at_checked(length as usize);
            let (body, rest) = cut.ok_or(Wrong::Malformed)?;
            (Cow::Borrowed(body), rest)
        }
        Framing::Chunked => read_chunks(behind)?,
    };
    Ok(Some(Message {
        request: head.request,
        is_old: head.is_old,
        body,
        rest,
    }))
}

/// Reads a head after empty lines.
fn read_head(bytes: &[u8]) -> Option<Head<'_>> {
    let mut rest = bytes;
    let mut line = next_line(&mut rest)?;
    while line.is_empty() {
        line = next_line(&mut rest)?;
    }
    let (start, is_old) = match line.strip_suffix(b" HTTP/1.1") {
        Some(start) => (start, false),
        None => (line.strip_suffix(b" HTTP/1.0")?, true),
    };
    let mut request = read_start(start)?;
    loop {
        let line = next_line(&mut rest)?;
        if line.is_empty() {
            return Some(Head {
                request,
                is_old,
                length: bytes.len() - rest.len(),
            });
        }
        if request.headers.len() == MOST_FIELDS {
            return None;
        }
        let colon = find(line, b':')?;
        let (name, value) = (&line[..colon], trimmed(&line[colon + 1..]));
        request.headers.add(name, value)?;
    }
}

/// Reads a method, one space and a target, which is text to the end of its fragment.
fn read_start(start: &[u8]) -> Option<Request<'_>> {
    if start.iter().any(u8::is_ascii_control) || std::str::from_utf8(start).is_err() {
        return None;
    }
    request::read(start).ok()
}

/// Takes a line up to its line feed, without its end.
fn next_line<'a>(rest: &mut &'a [u8]) -> Option<&'a [u8]> {
    let at = find(rest, b'\n')?;
    let line = &rest[..at];
    *rest = &rest[at + 1..];
    Some(line.strip_suffix(b"\r").unwrap_or(line))
}

/// What the head says of the length of the body, `None` where it contradicts itself or cannot be read.
fn framing(request: &Request<'_>) -> Option<Framing> {
    let mut codings = request.headers.all("transfer-encoding");
    let mut lengths = request.headers.all("content-length");
    match (codings.next(), lengths.next()) {
        (None, None) => Some(Framing::Length(0)),
        (None, Some(length)) if lengths.next().is_none() => {
            text::number(trimmed(length), u64::MAX).map(Framing::Length)
        }
        (Some(coding), None) if codings.next().is_none() => trimmed(coding)
            .eq_ignore_ascii_case(b"chunked")
            .then_some(Framing::Chunked),
        _ => None,
    }
}

/// Reads chunks and the trailers after them: the bytes of the chunks, and what follows the trailers.
fn read_chunks(bytes: &[u8]) -> Result<(Cow<'_, [u8]>, &[u8]), Wrong> {
    let mut body = Cow::Borrowed([].as_slice());
    let mut rest = bytes;
    loop {
        let size = read_size(&mut rest).ok_or(Wrong::Malformed)?;
        if size == 0 {
            return Ok((body, skip_trailers(rest).ok_or(Wrong::Malformed)?));
        }
        if body.len() as u64 + size > MOST_BODY {
            return Err(Wrong::TooLarge);
        }
        let chunk = read_chunk(&mut rest, size as usize).ok_or(Wrong::Malformed)?;
        match &mut body {
            Cow::Borrowed([]) => body = Cow::Borrowed(chunk),
            body => body.to_mut().extend_from_slice(chunk),
        }
    }
}

/// Takes a size line: hexadecimal digits, and an extension that is dropped.
fn read_size(rest: &mut &[u8]) -> Option<u64> {
    let (mut size, mut digits) = (0, 0);
    while let Some(digit) = rest.get(digits).and_then(|byte| hex_value(*byte)) {
        if digits == MOST_DIGITS {
            return None;
        }
        size = size << 4 | u64::from(digit);
        digits += 1;
    }
    if digits == 0 {
        return None;
    }
    *rest = &rest[digits..];
    match rest {
        [b'\r', b'\n', behind @ ..] => *rest = behind,
        [b';', ..] => {
            text_line(rest, MOST_SIZE_LINE - digits)?;
        }
        _ => return None,
    }
    Some(size)
}

/// Takes so many bytes and CRLF. Returns the bytes.
fn read_chunk<'a>(rest: &mut &'a [u8], size: usize) -> Option<&'a [u8]> {
    let (chunk, behind) = rest.split_at_checked(size)?;
    *rest = behind.strip_prefix(b"\r\n")?;
    Some(chunk)
}

/// Skips trailer lines and the empty line after them.
fn skip_trailers(bytes: &[u8]) -> Option<&[u8]> {
    let mut rest = bytes;
    loop {
        let room = MOST_TRAILERS - (bytes.len() - rest.len());
        let line = text_line(&mut rest, room.max(2))?;
        if line.is_empty() {
            return Some(rest);
        }
    }
}

/// Takes header text and its CRLF, at most so many bytes in all. Returns the text.
fn text_line<'a>(rest: &mut &'a [u8], most: usize) -> Option<&'a [u8]> {
    let at = find(&rest[..rest.len().min(most)], b'\n')?;
    let line = rest[..at].strip_suffix(b"\r")?;
    *rest = &rest[at + 1..];
    is_header_text(line).then_some(line)
}
