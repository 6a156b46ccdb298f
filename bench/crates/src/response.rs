//! Responses.
use crate::refusal::Refusal;
use crate::text::{ROOM, put_line};
use bytes::Bytes;
use http::StatusCode;
use http::header::{CONTENT_TYPE, HeaderMap, HeaderName, HeaderValue};
use std::borrow::Cow;
use std::io::Write;

pub struct Response {
    pub status: StatusCode,
    pub headers: HeaderMap,
    pub body: Bytes,
}

impl Response {
    /// A response with this status and nothing else.
    pub fn empty(status: StatusCode) -> Response {
        Response {
            status,
            headers: HeaderMap::new(),
            body: Bytes::new(),
        }
    }

    /// A response with a body of this type.
    pub fn typed(media_type: &'static str, body: impl Into<Bytes>) -> Response {
        Response::new(StatusCode::OK, media_type, body.into())
    }

    /// A response with this text.
    pub fn text(body: impl Into<Bytes>) -> Response {
        Response::new(StatusCode::OK, PLAIN_TEXT, body.into())
    }

    fn new(status: StatusCode, media_type: &'static str, body: Bytes) -> Response {
        let mut headers = HeaderMap::with_capacity(1);
        headers.insert(CONTENT_TYPE, HeaderValue::from_static(media_type));
        Response {
            status,
            headers,
            body,
        }
    }

    /// The same with this header.
    pub fn with(mut self, name: HeaderName, value: HeaderValue) -> Response {
        self.headers.insert(name, value);
        self
    }

    /// Adds the status, the headers by their names, and the body.
    pub fn put(&self, out: &mut Vec<u8>) {
        put_line(out, b"status ", u64::from(self.status.as_u16()));
        self.put_headers(out, b"\n");
        if self.body.is_empty() {
            out.extend_from_slice(b"body");
        } else if is_printable(&self.body) {
            out.extend_from_slice(b"body text ");
            out.extend_from_slice(&self.body);
        } else {
            out.extend_from_slice(b"body hex ");
            put_hex(out, &self.body);
        }
        out.push(b'\n');
    }

    /// Adds the bytes of the reply in HTTP/1.1, to HEAD or to another method. No response has a
    /// field that says the length or the end of the connection.
    pub fn put_message(&self, out: &mut Vec<u8>, is_head: bool, closes: bool) {
        let phrase = self.status.canonical_reason().unwrap_or("");
        write!(out, "HTTP/1.1 {} {phrase}\r\n", self.status.as_u16()).expect(ROOM);
        self.put_headers(out, b"\r\n");
        let has_body = !is_head && !matches!(self.status.as_u16(), ..200 | 204 | 304);
        if has_body {
            write!(out, "content-length: {}\r\n", self.body.len()).expect(ROOM);
        }
        if closes {
            out.extend_from_slice(b"connection: close\r\n");
        }
        out.extend_from_slice(b"\r\n");
        if has_body {
            out.extend_from_slice(&self.body);
        }
    }

    /// Adds the headers by their names, each with this end of a line.
    fn put_headers(&self, out: &mut Vec<u8>, end: &[u8]) {
        let mut headers: Vec<_> = self.headers.iter().collect();
        headers.sort_by_key(|(name, _)| name.as_str());
        for (name, value) in headers {
            for part in [name.as_str().as_bytes(), b": ", value.as_bytes(), end] {
                out.extend_from_slice(part);
            }
        }
    }
}

const PLAIN_TEXT: &str = "text/plain; charset=utf-8";

impl From<Refusal> for Response {
    fn from(refusal: Refusal) -> Self {
        let text = match refusal.text {
            Cow::Borrowed(text) => Bytes::from_static(text.as_bytes()),
            Cow::Owned(text) => text.into(),
        };
        Response::new(refusal.status, PLAIN_TEXT, text)
    }
}

/// Whether all bytes are printable ASCII.
fn is_printable(body: &[u8]) -> bool {
    body.iter().all(|byte| matches!(byte, 0x20..=0x7E))
}

/// Adds two lower-case hexadecimal digits a byte.
fn put_hex(out: &mut Vec<u8>, bytes: &[u8]) {
    let digit = |nibble| b"0123456789abcdef"[usize::from(nibble)];
    out.extend(
        bytes
            .iter()
            .flat_map(|byte| [digit(byte >> 4), digit(byte & 15)]),
    );
}
