//! The documents of `/doc`, by conditional requests (RFC 7232) and ranges (RFC 7233).
use crate::request::Request;
use crate::response::Response;
use crate::tags::{self, Tag};
use crate::text::{number, put_number};
use bytes::Bytes;
use http::header::{
    ACCEPT_RANGES, ALLOW, CONTENT_RANGE, CONTENT_TYPE, ETAG, HeaderMap, HeaderName, HeaderValue,
    IF_MATCH, IF_MODIFIED_SINCE, IF_NONE_MATCH, IF_RANGE, IF_UNMODIFIED_SINCE, LAST_MODIFIED,
    RANGE,
};
use http::{Method, StatusCode};
use std::collections::HashMap;
use std::hint::black_box;
use std::ops::Range;
use std::sync::LazyLock;
use std::time::{Duration, SystemTime};

/// A document, with its headers as they are sent. Replies share their values, and the body.
struct Document {
    tag: Tag<'static>,
    modified: SystemTime,
    /// The headers of a 304, and those of the document.
    validators: HeaderMap,
    headers: HeaderMap,
    body: Bytes,
}

/// Documents by their paths.
struct Store(HashMap<&'static str, Document>);

/// The demo's documents, which are stored when the first of them is asked for.
static STORE: LazyLock<Store> = LazyLock::new(|| {
    let (strong, weak) = (Tag::strong("v1"), Tag::weak("e"));
    Store(HashMap::from([
        (
            "/doc/a",
            Document::of(strong, Bytes::from_static(b"0123456789")),
        ),
        ("/doc/empty", Document::of(weak, Bytes::new())),
    ]))
});

/// What the conditions of a request come to.
enum Verdict {
    NotAllowed,
    Failed,
    NotModified,
    /// A range that selects no byte.
    Unsatisfiable,
    Part(Range<usize>),
    Whole,
}

/// The reply to a request for one of the documents.
pub fn reply(request: &Request) -> Response {
    STORE.reply(request)
}

/// The text of the last of so many replies to a request for the one document of a store, which has
/// so many bytes.
pub fn last_reply(numbers: [&str; 2], request: &str, headers: &[&str]) -> Option<String> {
    let [count, size] = numbers.map(|digits| number(digits.as_bytes(), 1_000_000_000));
    let body = Bytes::from(vec![b'x'; size? as usize]);
    let document = Document::of(Tag::strong("v1"), body);
    let store = Store(HashMap::from([("/doc/a", document)]));
    let mut request = Request::read(request.as_bytes()).ok()?;
    for pair in headers.chunks_exact(2) {
        let name = HeaderName::from_bytes(pair[0].as_bytes()).ok()?;
        request.headers.append(name, pair[1].parse().ok()?);
    }
    let mut reply = store.reply(&request);
    for _ in 1..count? {
        reply = black_box(&store).reply(black_box(&request));
    }
    Some(shown(&reply))
}

/// The status, the headers, and how long the body is.
fn shown(reply: &Response) -> String {
    let mut shown = format!("status {}\n", reply.status.as_u16());
    for (name, value) in &reply.headers {
        shown += &format!("{name}: {}\n", value.to_str().unwrap_or(""));
    }
    shown + &format!("body {}\n", reply.body.len())
}

impl Store {
    fn reply(&self, request: &Request) -> Response {
        match self.0.get(request.target.path()) {
            Some(document) => document.reply(request),
            None => Response::empty(StatusCode::NOT_FOUND),
        }
    }
}

impl Document {
    /// A plain text of the demo's date.
    fn of(tag: Tag<'static>, body: Bytes) -> Document {
        let modified = SystemTime::UNIX_EPOCH + Duration::from_secs(1_700_000_000);
        let shared = |text: String| HeaderValue::try_from(text).expect("it is visible text");
        let mut validators = HeaderMap::new();
        validators.insert(ETAG, shared(tag.to_string()));
        validators.insert(LAST_MODIFIED, shared(httpdate::fmt_http_date(modified)));
        let mut headers = validators.clone();
        headers.insert(ACCEPT_RANGES, HeaderValue::from_static("bytes"));
        headers.insert(CONTENT_TYPE, HeaderValue::from_static("text/plain"));
        Document {
            validators,
            headers,
            body,
            tag,
            modified,
        }
    }

    fn reply(&self, request: &Request) -> Response {
        let mut reply = match self.verdict(&request.method, &request.headers) {
            Verdict::NotAllowed => Response::empty(StatusCode::METHOD_NOT_ALLOWED)
                .with(ALLOW, HeaderValue::from_static("GET, HEAD")),
            Verdict::Failed => Response::empty(StatusCode::PRECONDITION_FAILED),
            Verdict::NotModified => self.not_modified(),
            Verdict::Unsatisfiable => Response::empty(StatusCode::RANGE_NOT_SATISFIABLE)
                .with(CONTENT_RANGE, content_range(None, self.body.len())),
            Verdict::Part(part) => {
                let range = content_range(Some(&part), self.body.len());
                self.sent(StatusCode::PARTIAL_CONTENT, self.body.slice(part))
                    .with(CONTENT_RANGE, range)
            }
            Verdict::Whole => self.sent(StatusCode::OK, self.body.clone()),
        };
        if request.method == Method::HEAD {
            reply.body = Bytes::new();
        }
        reply
    }

    /// The steps of RFC 7232, section 6, in their order.
    fn verdict(&self, method: &Method, headers: &HeaderMap) -> Verdict {
        if method != Method::GET && method != Method::HEAD {
            return Verdict::NotAllowed;
        }
        let matches = tags::any(headers, IF_MATCH, |tag| self.tag.is_strongly(tag))
            .or_else(|| Some(self.modified <= date(headers, IF_UNMODIFIED_SINCE)?));
        if matches == Some(false) {
            return Verdict::Failed;
        }
        let is_known = tags::any(headers, IF_NONE_MATCH, |tag| self.tag.is_weakly(tag))
            .or_else(|| Some(self.modified <= date(headers, IF_MODIFIED_SINCE)?));
        if is_known == Some(true) {
            return Verdict::NotModified;
        }
        match Asked::read(headers) {
            Some(asked) if method == Method::GET && self.is_range_of_this(headers) => asked
                .of(self.body.len())
                .map_or(Verdict::Unsatisfiable, Verdict::Part),
            _ => Verdict::Whole,
        }
    }

    /// Whether If-Range is absent, or names this version.
    fn is_range_of_this(&self, headers: &HeaderMap) -> bool {
        let Some(value) = headers.get(IF_RANGE) else {
            return true;
        };
        let Ok(text) = value.to_str() else {
            return false;
        };
        match Tag::read(text) {
            Some(tag) => self.tag.is_strongly(&tag),
            None => read_date(text) == Some(self.modified),
        }
    }

    fn not_modified(&self) -> Response {
        Response {
            headers: self.validators.clone(),
            ..Response::empty(StatusCode::NOT_MODIFIED)
        }
    }

    /// A reply with these bytes of the document.
    fn sent(&self, status: StatusCode, body: Bytes) -> Response {
        Response {
            status,
            headers: self.headers.clone(),
            body,
        }
    }
}

/// The date of a header, `None` where it is absent or cannot be read.
fn date(headers: &HeaderMap, name: HeaderName) -> Option<SystemTime> {
    read_date(headers.get(name)?.to_str().ok()?)
}

/// Reads a date. `httpdate` takes one with blanks around too.
fn read_date(text: &str) -> Option<SystemTime> {
    if text.trim_ascii() != text {
        return None;
    }
    httpdate::parse_http_date(text).ok()
}

/// A range of bytes, as a request asks for it.
enum Asked {
    FromTo(u64, u64),
    From(u64),
    Last(u64),
}

impl Asked {
    /// The range of Range, where it is one range of bytes. Those that cannot be read do not count.
    fn read(headers: &HeaderMap) -> Option<Asked> {
        let text = headers.get(RANGE)?.to_str().ok()?;
        let parts = text.strip_prefix("bytes=")?.split(',');
        let mut ranges = parts.filter_map(|part| Asked::read_one(part.trim_ascii()));
        let range = ranges.next()?;
        ranges.next().is_none().then_some(range)
    }

    fn read_one(text: &str) -> Option<Asked> {
        let number = |digits: &str| number(digits.as_bytes(), u64::MAX);
        match text.split_once('-')? {
            ("", last) => number(last).map(Asked::Last),
            (first, "") => number(first).map(Asked::From),
            (first, last) => {
                let (first, last) = (number(first)?, number(last)?);
                (first <= last).then_some(Asked::FromTo(first, last))
            }
        }
    }

    /// The positions that it selects of so many, `None` where there are none.
    fn of(&self, length: usize) -> Option<Range<usize>> {
        let whole = length as u64;
        let (start, end) = match *self {
            Asked::FromTo(first, last) => (first, whole.min(last.saturating_add(1))),
            Asked::From(first) => (first, whole),
            Asked::Last(count) => (whole.saturating_sub(count), whole),
        };
        (start < end).then_some(start as usize..end as usize)
    }
}

/// The value of Content-Range: a part of so many bytes, or an asterisk for none.
fn content_range(part: Option<&Range<usize>>, length: usize) -> HeaderValue {
    let mut out = Vec::with_capacity(32);
    out.extend_from_slice(b"bytes ");
    match part {
        Some(part) => {
            put_number(&mut out, part.start as u64);
            out.push(b'-');
            put_number(&mut out, part.end as u64 - 1);
        }
        None => out.push(b'*'),
    }
    out.push(b'/');
    put_number(&mut out, length as u64);
    HeaderValue::try_from(out).expect("it is ASCII")
}
