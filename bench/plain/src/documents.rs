//! The documents of `/doc`, by conditional requests (RFC 7232) and ranges (RFC 7233).
use crate::date;
use crate::headers::{Headers, is_header_text};
use crate::reply::{Body, Reply};
use crate::request::{self, Request};
use crate::text::{number, put_number, trimmed};
use std::borrow::Cow;
use std::collections::HashMap;
use std::hint::black_box;
use std::ops::Range;
use std::sync::LazyLock;

/// A document, with the values of its headers as they are sent.
struct Document {
    media_type: String,
    /// The tag without its quotes.
    tag: String,
    is_weak: bool,
    etag: String,
    /// In seconds since 1970.
    modified: u64,
    last_modified: String,
    body: Vec<u8>,
}

/// Documents by their paths. Replies borrow from it.
struct Store {
    documents: HashMap<String, Document>,
}

/// The demo's documents, which are stored when the first of them is asked for.
static STORE: LazyLock<Store> = LazyLock::new(|| {
    let mut store = Store {
        documents: HashMap::new(),
    };
    store.add("/doc/a", Document::of(false, "v1", b"0123456789"));
    store.add("/doc/empty", Document::of(true, "e", b""));
    store
});

/// The text of the last of so many replies to a request for the one document of a store, which has so many bytes.
pub fn last_reply(numbers: [&str; 2], request: &str, headers: &[&str]) -> Option<String> {
    let [count, size] = numbers.map(|digits| number(digits.as_bytes(), 1_000_000_000));
    let mut store = Store {
        documents: HashMap::new(),
    };
    let body = vec![b'x'; size? as usize];
    store.add("/doc/a", Document::of(false, "v1", &body));
    let mut request = request::read(request.as_bytes()).ok()?;
    for pair in headers.chunks_exact(2) {
        request.headers.add(pair[0].as_bytes(), pair[1].as_bytes())?;
    }
    let mut reply = store.reply(&request);
    for _ in 1..count? {
        reply = black_box(&store).reply(black_box(&request));
    }
    Some(shown(&reply))
}

/// The status, the headers, and how long the body is.
fn shown(reply: &Reply<'_>) -> String {
    let mut shown = format!("status {}\n", reply.status);
    for (name, value) in &reply.headers {
        shown += &format!("{name}: {value}\n");
    }
    let size = match &reply.body {
        Body::Whole(bytes) => bytes.len(),
        Body::Stream(_) => 0,
    };
    shown + &format!("body {size}\n")
}

/// The reply to a request for one of the documents.
pub fn reply(request: &Request<'_>) -> Reply<'static> {
    STORE.reply(request)
}

impl Store {
    fn add(&mut self, path: &str, document: Document) {
        self.documents.insert(path.to_string(), document);
    }

    fn reply(&self, request: &Request<'_>) -> Reply<'_> {
        match self.documents.get(request.target.path()) {
            Some(document) => document.reply(request),
            None => Reply::empty(404),
        }
    }
}

/// The tag of a version of a document.
struct Tag<'a> {
    is_weak: bool,
    text: &'a [u8],
}

/// What the conditions of a request come to.
enum Verdict {
    NotAllowed,
    Failed,
    NotModified,
    /// A range that selects no byte.
    Unsatisfiable,
    Part(Range<usize>),
    Whole,
}

impl Document {
    /// A plain text of the demo's date.
    fn of(is_weak: bool, tag: &str, body: &[u8]) -> Document {
        let last_modified = "Tue, 14 Nov 2023 22:13:20 GMT";
        let prefix = if is_weak { "W/" } else { "" };
        Document {
            media_type: "text/plain".to_string(),
            tag: tag.to_string(),
            is_weak,
            etag: format!("{prefix}\"{tag}\""),
            modified: date::read(last_modified.as_bytes()).expect("it is a date"),
            last_modified: last_modified.to_string(),
            body: body.to_vec(),
        }
    }

    fn tag(&self) -> Tag<'_> {
        Tag {
            is_weak: self.is_weak,
            text: self.tag.as_bytes(),
        }
    }

    fn reply(&self, request: &Request<'_>) -> Reply<'_> {
        let mut reply = match self.verdict(request.method, &request.headers) {
            Verdict::NotAllowed => Reply::empty(405).with("allow", "GET, HEAD"),
            Verdict::Failed => Reply::empty(412),
            Verdict::NotModified => self.not_modified(),
            Verdict::Unsatisfiable => {
                Reply::empty(416).with("content-range", content_range(None, self.body.len()))
            }
            Verdict::Part(part) => {
                let range = content_range(Some(&part), self.body.len());
                self.sent(206, &self.body[part])
                    .with("content-range", range)
            }
            Verdict::Whole => self.sent(200, &self.body),
        };
        if request.method == "HEAD" {
            reply.body = Body::Whole(Cow::Borrowed(&[]));
        }
        reply
    }

    fn verdict(&self, method: &str, headers: &Headers<'_>) -> Verdict {
        if method != "GET" && method != "HEAD" {
            return Verdict::NotAllowed;
        }
        let matches = any_tag(headers, "if-match", |tag| self.tag().is_strongly(tag))
            .or_else(|| Some(self.modified <= date(headers, "if-unmodified-since")?));
        if matches == Some(false) {
            return Verdict::Failed;
        }
        let is_known = any_tag(headers, "if-none-match", |tag| self.tag().text == tag.text)
            .or_else(|| Some(self.modified <= date(headers, "if-modified-since")?));
        if is_known == Some(true) {
            return Verdict::NotModified;
        }
        match one_range(headers) {
            Some(range) if method == "GET" && self.is_range_of_this(headers) => range
                .of(self.body.len())
                .map_or(Verdict::Unsatisfiable, Verdict::Part),
            _ => Verdict::Whole,
        }
    }

    /// Whether If-Range is absent, or names this version.
    fn is_range_of_this(&self, headers: &Headers<'_>) -> bool {
        let Some(value) = headers.get("if-range") else {
            return true;
        };
        match Tag::read(value) {
            Some(tag) => self.tag().is_strongly(&tag),
            None => date::read(value) == Some(self.modified),
        }
    }

    /// The headers of 304, and room for those of a part.
    fn validators(&self) -> Vec<(&'static str, Cow<'_, str>)> {
        let mut headers = Vec::with_capacity(5);
        headers.push(("etag", self.etag.as_str().into()));
        headers.push(("last-modified", self.last_modified.as_str().into()));
        headers
    }

    fn not_modified(&self) -> Reply<'_> {
        Reply {
            headers: self.validators(),
            ..Reply::empty(304)
        }
    }

    /// A reply with these bytes of the document.
    fn sent<'a>(&'a self, status: u16, body: &'a [u8]) -> Reply<'a> {
        let mut headers = self.validators();
        headers.push(("accept-ranges", "bytes".into()));
        headers.push(("content-type", self.media_type.as_str().into()));
        Reply {
            status,
            headers,
            body: Body::Whole(Cow::Borrowed(body)),
        }
    }
}

impl<'a> Tag<'a> {
    fn read(text: &'a [u8]) -> Option<Tag<'a>> {
        let (is_weak, quoted) = match text.strip_prefix(b"W/") {
            Some(quoted) => (true, quoted),
            None => (false, text),
        };
        let text = quoted.strip_prefix(b"\"")?.strip_suffix(b"\"")?;
        let is_tag = text.iter().all(|byte| matches!(byte, 0x21 | 0x23..=0x7E));
        is_tag.then_some(Tag { is_weak, text })
    }

    /// Whether both are strong and have the same text.
    fn is_strongly(&self, other: &Tag<'_>) -> bool {
        !self.is_weak && !other.is_weak && self.text == other.text
    }
}

/// Whether a list of tags has one of these, or is an asterisk. `None` where the header is absent or no value of it.
fn any_tag(headers: &Headers<'_>, name: &str, is_it: impl Fn(&Tag<'_>) -> bool) -> Option<bool> {
    if trimmed(headers.get(name)?) == b"*" {
        return Some(true);
    }
    if !headers.all(name).all(is_header_text) {
        return None;
    }
    let mut texts = headers.all(name).flat_map(|value| Pieces(Some(value)));
    Some(texts.any(|text| Tag::read(trimmed(text)).is_some_and(|tag| is_it(&tag))))
}

/// What stands between commas outside of quotes.
struct Pieces<'a>(Option<&'a [u8]>);

impl<'a> Iterator for Pieces<'a> {
    type Item = &'a [u8];

    fn next(&mut self) -> Option<&'a [u8]> {
        let text = self.0?;
        let mut is_quoted = false;
        let comma = text.iter().position(|byte| {
            is_quoted ^= *byte == b'"';
            *byte == b',' && !is_quoted
        });
        self.0 = comma.map(|at| &text[at + 1..]);
        Some(&text[..comma.unwrap_or(text.len())])
    }
}

fn date(headers: &Headers<'_>, name: &str) -> Option<u64> {
    date::read(headers.get(name)?)
}

/// A range of bytes, as a request asks for it.
enum Asked {
    FromTo(u64, u64),
    From(u64),
    Last(u64),
}

/// The range of Range, where it is one range of bytes. Those that cannot be read do not count.
fn one_range(headers: &Headers<'_>) -> Option<Asked> {
    let value = headers.get("range").filter(|value| is_header_text(value))?;
    let texts = value.strip_prefix(b"bytes=")?.split(|byte| *byte == b',');
    let mut ranges = texts.filter_map(|text| Asked::read(trimmed(text)));
    let range = ranges.next()?;
    ranges.next().is_none().then_some(range)
}

impl Asked {
    fn read(text: &[u8]) -> Option<Asked> {
        let at = text.iter().position(|byte| *byte == b'-')?;
        let number = |digits| number(digits, u64::MAX);
        match (&text[..at], &text[at + 1..]) {
            (b"", last) => number(last).map(Asked::Last),
            (first, b"") => number(first).map(Asked::From),
            (first, last) => {
                let (first, last) = (number(first)?, number(last)?);
                (first <= last).then_some(Asked::FromTo(first, last))
            }
        }
    }

    /// The positions that it selects of so many, `None` where there are none.
    fn of(&self, length: usize) -> Option<Range<usize>> {
        let whole = length as u64;
        let (start, end) = match *self {
            Asked::FromTo(first, last) => (first, whole.min(last.saturating_add(1))),
            Asked::From(first) => (first, whole),
            Asked::Last(count) => (whole.saturating_sub(count), whole),
        };
        (start < end).then_some(start as usize..end as usize)
    }
}

/// The value of Content-Range: a part of so many bytes, or an asterisk for none.
fn content_range(part: Option<&Range<usize>>, length: usize) -> String {
    let mut out = Vec::with_capacity(32);
    out.extend_from_slice(b"bytes ");
    match part {
        Some(part) => {
            put_number(&mut out, part.start as u64);
            out.push(b'-');
            put_number(&mut out, part.end as u64 - 1);
        }
        None => out.push(b'*'),
    }
    out.push(b'/');
    put_number(&mut out, length as u64);
    String::from_utf8(out).expect("it is ASCII")
}
