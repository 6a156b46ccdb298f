//! Builders and what they build, as tables have them.
use crate::item::Item;
use crate::printed::assert_parts;
use bytes::Bytes;
use http::StatusCode;
use std::alloc::Global;
use std::process::Abort;
use web_body::{Mark, Marks, Payload};
use web_build::HttpResponseBuilder;
use web_cookies::Cookie;
use web_reply::{BoxBody, HttpResponse};

const PLAIN_TEXT: &str = "content-type: text/plain; charset=utf-8";

/// The content type of a body that is streamed.
pub(crate) const OCTETS: &str = "content-type: application/octet-stream";

/// The content type of JSON.
pub(crate) const JSON: &str = "content-type: application/json";

/// The item of the name `ab` and the number 7.
pub(crate) const ITEM: &str = "bytes {\"n\":7,\"name\":\"ab\"}";

/// The reply to a name that is refused.
pub(crate) const REFUSED_NAME: &[&str] = &[
    "500",
    PLAIN_TEXT,
    "bytes invalid header name",
    "Http(Name)",
];

/// The reply to a value that is refused.
pub(crate) const REFUSED_VALUE: &[&str] = &[
    "500",
    PLAIN_TEXT,
    "bytes invalid header value",
    "Http(Value)",
];

/// A call of a setter.
#[derive(Clone, Copy)]
pub(crate) enum Setter {
    Status(u16),
    Reason(&'static str),
    KeepAlive,
    ForceClose,
    NoChunking(u64),
    ContentType(&'static str),
    Upgrade(&'static str),
    /// The cookie that this text says.
    Cookie(&'static str),
    TryInsert(&'static str, &'static str),
    TryAppend(&'static str, &'static str),
    Set(&'static str, &'static str),
    Add(&'static str, &'static str),
}

/// How the response is built.
#[derive(Clone, Copy)]
pub(crate) enum End {
    Finish,
    /// With the text `x`.
    Body,
    /// With the item of the name `ab` and the number 7.
    Json,
    /// With a piece `ab` and a stall.
    Streaming,
}

/// Setters, and the reply of each way of building, as parts of its text.
pub(crate) struct BuilderCase {
    pub(crate) setters: &'static [Setter],
    pub(crate) replies: &'static [(End, &'static [&'static str])],
}

fn add_cookie(rt: &impl Abort, alloc: Global, builder: &mut HttpResponseBuilder, text: &str) {
    let cookie = Cookie::parse(alloc, text).ok().expect(rt, "a cookie");
    builder.cookie(&cookie).expect(rt, "memory");
}

fn set_status(builder: &mut HttpResponseBuilder, status: u16) {
    if let Ok(status) = StatusCode::from_u16(status) {
        builder.status(status);
    }
}

fn set_reason(builder: &mut HttpResponseBuilder, reason: &'static str) {
    builder.reason(reason);
}

fn set_keep_alive(builder: &mut HttpResponseBuilder) {
    builder.keep_alive();
}

fn set_force_close(builder: &mut HttpResponseBuilder) {
    builder.force_close();
}

/// Calls a setter that sets no header.
fn set_head(builder: &mut HttpResponseBuilder, setter: Setter) {
    match setter {
        Setter::Status(status) => set_status(builder, status),
        Setter::Reason(reason) => set_reason(builder, reason),
        Setter::KeepAlive => set_keep_alive(builder),
        Setter::ForceClose => set_force_close(builder),
        _ => {}
    }
}

fn set_length(rt: &impl Abort, builder: &mut HttpResponseBuilder, length: u64) {
    builder.no_chunking(length).expect(rt, "memory");
}

fn set_type(rt: &impl Abort, builder: &mut HttpResponseBuilder, value: &'static str) {
    builder.content_type(value).expect(rt, "memory");
}

fn set_upgrade(rt: &impl Abort, builder: &mut HttpResponseBuilder, value: &'static str) {
    builder.upgrade(value).expect(rt, "memory");
}

/// Calls a setter of a header that has its own name.
fn set_header(rt: &impl Abort, builder: &mut HttpResponseBuilder, setter: Setter) {
    match setter {
        Setter::NoChunking(length) => set_length(rt, builder, length),
        Setter::ContentType(value) => set_type(rt, builder, value),
        Setter::Upgrade(value) => set_upgrade(rt, builder, value),
        _ => {}
    }
}

/// A name and a value of a header.
type Pair = (&'static str, &'static str);

fn try_insert(rt: &impl Abort, builder: &mut HttpResponseBuilder, pair: Pair) {
    builder
        .try_insert_header(pair.0, pair.1)
        .expect(rt, "memory");
}

fn try_append(rt: &impl Abort, builder: &mut HttpResponseBuilder, pair: Pair) {
    builder
        .try_append_header(pair.0, pair.1)
        .expect(rt, "memory");
}

fn set_pair(rt: &impl Abort, builder: &mut HttpResponseBuilder, pair: Pair) {
    builder.set_header(pair.0, pair.1).expect(rt, "memory");
}

fn add_pair(rt: &impl Abort, builder: &mut HttpResponseBuilder, pair: Pair) {
    builder.header(pair.0, pair.1).expect(rt, "memory");
}

/// Calls a setter of a header that is named.
fn set_named(rt: &impl Abort, builder: &mut HttpResponseBuilder, setter: Setter) {
    match setter {
        Setter::TryInsert(name, value) => try_insert(rt, builder, (name, value)),
        Setter::TryAppend(name, value) => try_append(rt, builder, (name, value)),
        Setter::Set(name, value) => set_pair(rt, builder, (name, value)),
        Setter::Add(name, value) => add_pair(rt, builder, (name, value)),
        _ => {}
    }
}

/// The builder of 200 after these setters.
pub(crate) fn builder_after(
    rt: &impl Abort,
    alloc: Global,
    setters: &[Setter],
) -> HttpResponseBuilder {
    let mut builder = HttpResponseBuilder::new(alloc, StatusCode::OK);
    for setter in setters {
        set_head(&mut builder, *setter);
        set_header(rt, &mut builder, *setter);
        set_named(rt, &mut builder, *setter);
        if let Setter::Cookie(text) = *setter {
            add_cookie(rt, alloc, &mut builder, text);
        }
    }
    builder
}

/// A payload of a piece `ab` and a stall.
pub(crate) fn stalling_payload(rt: &impl Abort, alloc: Global) -> Payload<Marks> {
    let marks = vec![in alloc; Mark::Piece(Bytes::from_static(b"ab")), Mark::Stall];
    Payload::Stream(Marks::new(marks.expect(rt, "memory")))
}

const NAMED_NUMBER: Item = Item { name: "ab", n: 7 };

type Reply = HttpResponse<BoxBody<Marks>>;

fn finished(rt: &impl Abort, builder: HttpResponseBuilder) -> Reply {
    if builder.is_spent() {
        panic!(rt; "the builder is spent");
    }
    builder.finish().expect(rt, "memory")
}

fn with_text(rt: &impl Abort, builder: HttpResponseBuilder) -> Reply {
    if builder.is_spent() {
        panic!(rt; "the builder is spent");
    }
    builder.body(Bytes::from_static(b"x")).expect(rt, "memory")
}

fn with_item(rt: &impl Abort, builder: HttpResponseBuilder) -> Reply {
    if builder.is_spent() {
        panic!(rt; "the builder is spent");
    }
    builder.json(&NAMED_NUMBER).expect(rt, "memory")
}

fn streamed(rt: &impl Abort, alloc: Global, builder: HttpResponseBuilder) -> Reply {
    if builder.is_spent() {
        panic!(rt; "the builder is spent");
    }
    builder
        .streaming(stalling_payload(rt, alloc))
        .expect(rt, "memory")
}

/// Builds the response.
fn built(rt: &impl Abort, alloc: Global, builder: HttpResponseBuilder, end: End) -> Reply {
    match end {
        End::Finish => finished(rt, builder),
        End::Body => with_text(rt, builder),
        End::Json => with_item(rt, builder),
        End::Streaming => streamed(rt, alloc, builder),
    }
}

/// Compares what each way of building gives.
pub(crate) fn assert_case(rt: &impl Abort, alloc: Global, case: &BuilderCase) {
    for (end, expected) in case.replies {
        let builder = builder_after(rt, alloc, case.setters);
        let reply = built(rt, alloc, builder, *end);
        assert_parts(rt, alloc, &reply, expected);
    }
}
