//! Messages of HTTP/1.1, whose heads `httparse` reads.
use crate::request::{NoRequest, Request};
use crate::text::number;
use bytes::{Bytes, BytesMut};
use http::header::{CONTENT_LENGTH, HeaderMap, HeaderName, HeaderValue, TRANSFER_ENCODING};
use http::{Method, Uri};
use httparse::Status;

/// The most bytes of a head, with the empty lines before it.
const MOST_HEAD: usize = 16_384;
const MOST_FIELDS: usize = 64;
/// The most bytes of a body.
const MOST_BODY: u64 = 1_048_576;
/// The most bytes of a size line, with its end, and the most digits of the size.
const MOST_SIZE_LINE: usize = 256;
const MOST_DIGITS: usize = 8;
/// The most bytes of all trailer lines, with their ends.
const MOST_TRAILERS: usize = 16_384;

pub struct Message {
    pub request: Request,
    /// Its version is HTTP/1.0.
    pub is_old: bool,
    pub body: Bytes,
    /// How many bytes it has.
    pub used: usize,
}

/// Why there is no message.
pub enum Wrong {
    /// It is malformed, or cut.
    Malformed,
    /// Its body is longer than any may be.
    TooLarge,
    /// It asks for a segment of the demo that is not written here.
    Lacking,
}

impl From<NoRequest> for Wrong {
    fn from(reason: NoRequest) -> Self {
        match reason {
            NoRequest::Malformed => Wrong::Malformed,
            NoRequest::Lacking => Wrong::Lacking,
        }
    }
}

/// What a head says of the length of the body.
enum Framing {
    Length(u64),
    Chunked,
}

/// The next message, `None` where nothing but line ends is left.
pub fn next(bytes: &Bytes) -> Result<Option<Message>, Wrong> {
    if bytes.iter().all(|byte| matches!(byte, b'\r' | b'\n')) {
        return Ok(None);
    }
    let (request, is_old, length) = read_head(bytes)?;
    let (body, used) = match framing(&request.headers).ok_or(Wrong::Malformed)? {
        Framing::Length(size) if size > MOST_BODY => return Err(Wrong::TooLarge),
        Framing::Length(size) => {
            let end = length + size as usize;
            if bytes.len() < end {
                return Err(Wrong::Malformed);
            }
            (bytes.slice(length..end), end)
        }
        Framing::Chunked => {
            let (body, left) = read_chunks(&bytes[length..])?;
            (body, bytes.len() - left)
        }
    };
    Ok(Some(Message {
        request,
        is_old,
        body,
        used,
    }))
}

/// The request of a head, whether it is of HTTP/1.0, and how many bytes the head has.
fn read_head(bytes: &[u8]) -> Result<(Request, bool, usize), Wrong> {
    let front = &bytes[..bytes.len().min(MOST_HEAD)];
    let mut fields = [httparse::EMPTY_HEADER; MOST_FIELDS];
    let mut head = httparse::Request::new(&mut fields);
    let Ok(Status::Complete(length)) = head.parse(front) else {
        return Err(Wrong::Malformed);
    };
    let (method, target) = read_start(&head).ok_or(Wrong::Malformed)?;
    let mut request = Request::of(method, target)?;
    request.headers.reserve(head.headers.len());
    for field in head.headers.iter() {
        add_field(&mut request.headers, field).ok_or(Wrong::Malformed)?;
    }
    Ok((request, head.version == Some(0), length))
}

fn read_start(head: &httparse::Request<'_, '_>) -> Option<(Method, Uri)> {
    let method = Method::from_bytes(head.method?.as_bytes()).ok()?;
    Some((method, Uri::try_from(head.path?).ok()?))
}

fn add_field(headers: &mut HeaderMap, field: &httparse::Header<'_>) -> Option<()> {
    let name = HeaderName::from_bytes(field.name.as_bytes()).ok()?;
    headers.append(name, HeaderValue::from_bytes(field.value).ok()?);
    Some(())
}

/// What the head says of the length of the body, `None` where it contradicts itself or cannot be
/// read.
fn framing(headers: &HeaderMap) -> Option<Framing> {
    let mut codings = headers.get_all(TRANSFER_ENCODING).iter();
    let mut lengths = headers.get_all(CONTENT_LENGTH).iter();
    match (codings.next(), lengths.next()) {
        (None, None) => Some(Framing::Length(0)),
        (None, Some(length)) if lengths.next().is_none() => {
            number(length.as_bytes(), u64::MAX).map(Framing::Length)
        }
        (Some(coding), None) if codings.next().is_none() => coding
            .as_bytes()
            .eq_ignore_ascii_case(b"chunked")
            .then_some(Framing::Chunked),
        _ => None,
    }
}

/// Reads chunks and the trailers after them: the bytes of the chunks, and how many bytes follow.
fn read_chunks(bytes: &[u8]) -> Result<(Bytes, usize), Wrong> {
    let mut body = BytesMut::new();
    let mut rest = bytes;
    loop {
        let size = read_size(&mut rest).ok_or(Wrong::Malformed)?;
        if size == 0 {
            let left = skip_trailers(rest).ok_or(Wrong::Malformed)?;
            return Ok((body.freeze(), left.len()));
        }
        if body.len() as u64 + size > MOST_BODY {
            return Err(Wrong::TooLarge);
        }
        let chunk = read_chunk(&mut rest, size as usize).ok_or(Wrong::Malformed)?;
        body.extend_from_slice(chunk);
    }
}

/// Takes a size line: hexadecimal digits, and an extension that is dropped.
fn read_size(rest: &mut &[u8]) -> Option<u64> {
    let line = take_line(rest, MOST_SIZE_LINE)?;
    let digits = line.iter().take_while(|byte| byte.is_ascii_hexdigit());
    let (digits, behind) = line.split_at(digits.count());
    if digits.len() > MOST_DIGITS || !matches!(behind, [] | [b';', ..]) {
        return None;
    }
    u64::from_str_radix(std::str::from_utf8(digits).ok()?, 16).ok()
}

/// Takes a line of text that has at most so many bytes with its end, CRLF. Returns it without.
fn take_line<'a>(rest: &mut &'a [u8], most: usize) -> Option<&'a [u8]> {
    let is_text = |byte: &u8| *byte == b'\t' || matches!(byte, 0x20..=0x7E);
    let end = rest.iter().position(|byte| !is_text(byte))?;
    let (line, behind) = rest.split_at(end);
    *rest = behind.strip_prefix(b"\r\n")?;
    (end + 2 <= most).then_some(line)
}

/// Takes so many bytes and CRLF. Returns the bytes.
fn read_chunk<'a>(rest: &mut &'a [u8], size: usize) -> Option<&'a [u8]> {
    let (chunk, behind) = rest.split_at_checked(size)?;
    *rest = behind.strip_prefix(b"\r\n")?;
    Some(chunk)
}

/// Skips trailer lines and the empty line after them.
fn skip_trailers(bytes: &[u8]) -> Option<&[u8]> {
    let mut rest = bytes;
    let mut left = MOST_TRAILERS;
    loop {
        if let Some(behind) = rest.strip_prefix(b"\r\n") {
            return Some(behind);
        }
        left -= take_line(&mut rest, left)?.len() + 2;
    }
}
