//! The replies to requests for a document: to one request, and to every choice of conditions; and
//! to a request for content that is described.
use crate::answers::{Answer, no_such_call, text};
use crate::maps::{BETWEEN, headers_of, is_named_appended};
use bytes::Bytes;
use http::{Method, Version};
use http_header::{HeaderMap, HeaderValue};
use http_uri::Uri;
use httpdate::HttpDate;
use std::alloc::Global;
use std::fmt::Write;
use std::rc::Rc;
use std::str;
use web_body::Marks;
use web_docs::{Described, Document, Sends, Store, answer_described, answer_document};
use web_entities::EntityTag;
use web_reply::{HttpResponse, WholeBody};
use web_request::{
    App, AppConfig, HttpRequest, HttpRequestPool, NoData, PlainApp, RequestHead, RequestParts,
    Source,
};
use web_texts::{Mime, NoMemory, ReadText, Text};

/// What stands between the values of a condition.
const OR: &str = " or ";

/// The letters that stand for the replies of a table, in the order in which they first come.
const LETTERS: &str = "ABCDEFGH";

/// The fields of a row: a method and a target; the tag of the document under `/d`, when it was
/// changed, in seconds since 1970, and its content; and header fields, `NAME: VALUE`.
pub(crate) fn answer(alloc: Global, name: &str, fields: &[&str]) -> Answer {
    match (name, fields) {
        ("described", [method, tag, seconds, length, headers @ ..]) => {
            described(alloc, method, (tag, seconds, length), headers)
        }
        _ => answer_of(alloc, name, fields),
    }
}

fn answer_of(alloc: Global, name: &str, fields: &[&str]) -> Answer {
    let [request, tag, seconds, body, headers @ ..] = fields else {
        return no_such_call(alloc);
    };
    let Some(store) = store_of(alloc, tag, seconds, body) else {
        return text(alloc, "no document");
    };
    match name {
        "reply" => reply(alloc, &store, request, headers),
        "replies" => replies(alloc, &store, request, headers),
        _ => no_such_call(alloc),
    }
}

/// The reply to a request for plain text of this tag, date, or `-`, and length.
fn described(alloc: Global, method: &str, content: (&str, &str, &str), fields: &[&str]) -> Answer {
    let (tag, seconds, length) = content;
    let Some(headers) = headers_of(alloc, fields)? else {
        return text(alloc, "no header fields");
    };
    match (description_of(alloc, tag, seconds), length.parse().ok()) {
        (Some(content), Some(length)) => described_by(alloc, &content, length, method, &headers),
        _ => text(alloc, "no description"),
    }
}

fn described_by(
    alloc: Global,
    content: &Described,
    length: u64,
    method: &str,
    headers: &HeaderMap<HeaderValue>,
) -> Answer {
    match Method::from_bytes(alloc, method.as_bytes()) {
        Ok(method) => {
            let reply = answer_described(alloc, content, length, &method, headers)?;
            sends_shown(alloc, &reply)
        }
        Err(_) => text(alloc, "no method"),
    }
}

fn description_of(alloc: Global, tag: &str, seconds: &str) -> Option<Described> {
    let modified = date_of(seconds)?;
    let tag = EntityTag::parse(alloc, tag).ok()?;
    Described::new(alloc, HeaderValue::from_static("text/plain"), tag, modified).ok()
}

fn date_of(seconds: &str) -> Option<Option<HttpDate>> {
    if seconds == "-" {
        return Some(None);
    }
    let date = HttpDate::from_unix_secs(seconds.parse().ok()?).ok()?;
    Some(Some(date))
}

/// The status, the headers, and what is sent.
fn sends_shown(alloc: Global, reply: &HttpResponse<Sends>) -> Answer {
    let status = reply.status().as_u16();
    let mut shown = format!(in alloc; "{status}")?;
    add_headers(&mut shown, reply.headers())?;
    match *reply.body() {
        Sends::Nothing => add_part(&mut shown, "nothing", "", b"")?,
        Sends::All => add_part(&mut shown, "all", "", b"")?,
        Sends::Part(first, last) => {
            let part = format!(in alloc; "from {first} to {last}")?;
            add_part(&mut shown, part.as_str(), "", b"")?;
        }
    }
    Ok(shown)
}

/// A store of one document of plain text, under `/d`.
fn store_of(alloc: Global, tag: &str, seconds: &str, body: &str) -> Option<Store> {
    let document = document_of(alloc, tag, seconds, body)?;
    let mut documents = Vec::new(alloc);
    documents.push(document).ok()?;
    Store::new(alloc, documents).ok()
}

fn document_of(alloc: Global, tag: &str, seconds: &str, body: &str) -> Option<Document> {
    let modified = HttpDate::from_unix_secs(seconds.parse().ok()?).ok()?;
    let body = body_of(alloc, body)?;
    let tag = EntityTag::parse(alloc, tag).ok()?;
    document_with(alloc, tag, modified, body)
}

fn document_with(
    alloc: Global,
    tag: EntityTag,
    modified: HttpDate,
    body: Bytes,
) -> Option<Document> {
    Some(Document {
        path: Text::of(alloc, "/d").ok()?,
        media_type: Mime::parse(alloc, "text/plain").ok()?,
        tag,
        modified,
        body,
    })
}

pub(crate) fn body_of(alloc: Global, text: &str) -> Option<Bytes> {
    let mut bytes = Vec::new(alloc);
    bytes.extend_from_slice(text.as_bytes()).ok()?;
    Bytes::from_vec(bytes).ok()
}

/// The reply to a request with these header fields.
fn reply(alloc: Global, store: &Store, request: &str, fields: &[&str]) -> Answer {
    match headers_of(alloc, fields)? {
        Some(headers) => reply_with(alloc, store, request, headers),
        None => text(alloc, "no header fields"),
    }
}

fn reply_with(
    alloc: Global,
    store: &Store,
    request: &str,
    headers: HeaderMap<HeaderValue>,
) -> Answer {
    match head_of(alloc, request, headers) {
        Some(head) => {
            let reply = answered(alloc, store, head)?;
            shown(alloc, &reply)
        }
        None => text(alloc, "no request"),
    }
}

/// The head of a request, `METHOD TARGET`, with these headers.
pub(crate) fn head_of(
    alloc: Global,
    request: &str,
    headers: HeaderMap<HeaderValue>,
) -> Option<RequestHead> {
    let (method, target) = request.split_once(' ')?;
    let method = Method::from_bytes(alloc, method.as_bytes()).ok()?;
    let uri = Uri::from_bytes(alloc, target.as_bytes()).ok()?;
    Some(RequestHead {
        method,
        uri,
        version: Version::HTTP_11,
        headers,
        peer_addr: None,
    })
}

fn answered(
    alloc: Global,
    store: &Store,
    head: RequestHead,
) -> Result<HttpResponse<WholeBody>, NoMemory> {
    let mut pool = pool::<Marks>(alloc)?;
    let req = started(alloc, &mut pool, head)?;
    answer_document(alloc, store, &req)
}

/// The first request of a pool.
pub(crate) fn started<A: App>(
    alloc: Global,
    pool: &mut HttpRequestPool<A>,
    head: RequestHead,
) -> Result<HttpRequest<A>, NoMemory> {
    let parts = RequestParts {
        head,
        params: Vec::new(alloc),
        layers: Vec::new(alloc),
        conn: None,
        local: None,
    };
    if pool.made() > 0 {
        return Err(NoMemory);
    }
    match pool.start(alloc, parts) {
        Ok(req) => Ok(req),
        Err(_) => Err(NoMemory),
    }
}

pub(crate) fn pool<S: Source>(alloc: Global) -> Result<HttpRequestPool<PlainApp<S>>, NoMemory> {
    let config = AppConfig::local(alloc)?;
    let root = Rc::new(alloc, NoData)?;
    HttpRequestPool::with_capacity(alloc, root, config, 0)
}

/// The status, the headers and the body.
pub(crate) fn shown(alloc: Global, reply: &HttpResponse<WholeBody>) -> Answer {
    let status = reply.status().as_u16();
    let mut shown = format!(in alloc; "{status}")?;
    add_headers(&mut shown, reply.headers())?;
    add_body(&mut shown, reply.body())?;
    Ok(shown)
}

fn add_headers(shown: &mut String, headers: &HeaderMap<HeaderValue>) -> Result<(), NoMemory> {
    for (name, value) in headers {
        add_part(shown, name.as_str(), ": ", value.as_bytes())?;
    }
    Ok(())
}

fn add_body(shown: &mut String, body: &WholeBody) -> Result<(), NoMemory> {
    match body {
        WholeBody::Empty => add_part(shown, "empty", "", b""),
        WholeBody::Bytes(bytes) => add_part(shown, "bytes ", "", bytes.as_slice()),
    }
}

fn add_part(shown: &mut String, name: &str, between: &str, value: &[u8]) -> Result<(), NoMemory> {
    let value = str::from_utf8(value).ok().unwrap_or("no text");
    match write!(shown, "; {name}{between}{value}") {
        Ok(()) => Ok(()),
        Err(_) => Err(NoMemory),
    }
}

/// The letters of replies, and the replies that they stand for.
#[derive(Drop)]
struct Table {
    letters: String,
    replies: Vec<String>,
}

/// The replies to the requests with every choice of four conditions, each of which is absent or has
/// one of its three values, `NAME: VALUE or VALUE or VALUE`. The further fields are in each
/// request. A letter stands for each reply, the choice of the last condition changing first.
fn replies(alloc: Global, store: &Store, request: &str, fields: &[&str]) -> Answer {
    let [first, second, third, fourth, more @ ..] = fields else {
        return no_such_call(alloc);
    };
    let conditions = [*first, *second, *third, *fourth];
    let mut table = Table {
        letters: String::new(alloc),
        replies: Vec::new(alloc),
    };
    for number in 0..256 {
        let reply = reply_of_choice(alloc, store, request, (&conditions, more), number)?;
        if number % 16 == 0 {
            table.letters.push(' ')?;
        }
        add_reply(&mut table, reply)?;
    }
    table_shown(alloc, &table)
}

/// The reply to the request with the choice of this number among the conditions.
fn reply_of_choice(
    alloc: Global,
    store: &Store,
    request: &str,
    fields: (&[&str; 4], &[&str]),
    number: usize,
) -> Answer {
    let (conditions, more) = fields;
    let Some(mut headers) = headers_of(alloc, more)? else {
        return text(alloc, "no header fields");
    };
    let mut left = number;
    for condition in conditions.iter().rev() {
        if !is_choice_appended(alloc, &mut headers, condition, left % 4)? {
            return text(alloc, "no condition");
        }
        left /= 4;
    }
    reply_with(alloc, store, request, headers)
}

/// Appends the value of a condition that has this number, from 1 on; at 0 it is absent. Gives
/// whether there is one.
fn is_choice_appended(
    alloc: Global,
    headers: &mut HeaderMap<HeaderValue>,
    condition: &str,
    number: usize,
) -> Result<bool, NoMemory> {
    if number == 0 {
        return Ok(true);
    }
    let (name, values) = condition.split_once(BETWEEN).unwrap_or((condition, ""));
    match values.split(OR).nth(number - 1) {
        Some(value) => is_named_appended(alloc, headers, name, value),
        None => Ok(false),
    }
}

/// Adds a reply to a table.
fn add_reply(table: &mut Table, reply: String) -> Result<(), NoMemory> {
    let place = place_of(&table.replies, reply.as_str());
    table.letters.push(letter_of(place))?;
    if place == table.replies.len() {
        table.replies.push(reply)?;
    }
    Ok(())
}

/// The place of a reply among others, or their number where it is new.
fn place_of(replies: &[String], reply: &str) -> usize {
    for (place, other) in replies.iter().enumerate() {
        if other.as_str() == reply {
            return place;
        }
    }
    replies.len()
}

fn letter_of(place: usize) -> char {
    LETTERS.chars().nth(place).unwrap_or('?')
}

/// The letters, and then each of them with its reply in brackets.
fn table_shown(alloc: Global, table: &Table) -> Answer {
    let letters = table.letters.as_str();
    let mut shown = text(alloc, letters.trim_start())?;
    for (place, reply) in table.replies.iter().enumerate() {
        let letter = letter_of(place);
        if write!(shown, " {letter} [{reply}]").is_err() {
            return Err(NoMemory);
        }
    }
    Ok(shown)
}
