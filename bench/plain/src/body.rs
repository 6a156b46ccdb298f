//! Bodies: their marks are read under a limit, and turned into bytes, a text, or an item.
use crate::item::Item;
use crate::layer::FormConfig;
use crate::reply::Refusal;
use crate::request::Request;
use crate::script::{self, Mark};
use crate::{layer::JsonConfig, text};
use std::borrow::Cow;

/// A body that is being collected.
pub struct Reading<'a> {
    marks: std::vec::IntoIter<Mark<'a>>,
    body: Cow<'a, [u8]>,
    limit: u64,
}

/// Why there is no body.
pub enum Unread {
    /// So many bytes had come when it passed the limit.
    TooLong(u64),
    Failed,
}

type Read<'a> = Result<Cow<'a, [u8]>, Unread>;

impl<'a> Reading<'a> {
    fn of(marks: Vec<Mark<'a>>, limit: u64) -> Reading<'a> {
        Reading {
            marks: marks.into_iter(),
            body: Cow::Borrowed(&[]),
            limit,
        }
    }

    /// Takes the marks up to the next stall, or to the answer.
    fn poll(&mut self) -> Option<Read<'a>> {
        loop {
            match self.marks.next() {
                Some(Mark::Text(piece)) => self.add(piece),
                Some(Mark::Piece(digits)) => script::decode_into(self.body.to_mut(), digits),
                Some(Mark::Stall) => return None,
                Some(Mark::Fault) => return Some(Err(Unread::Failed)),
                None => return Some(Ok(std::mem::take(&mut self.body))),
            }
            let length = self.body.len() as u64;
            if length > self.limit {
                return Some(Err(Unread::TooLong(length)));
            }
        }
    }

    /// Adds a piece. A piece alone is not copied.
    fn add(&mut self, piece: &'a [u8]) {
        match &mut self.body {
            Cow::Borrowed([]) => self.body = Cow::Borrowed(piece),
            Cow::Borrowed(first) => self.body = Cow::Owned([*first, piece].concat()),
            Cow::Owned(body) => body.extend_from_slice(piece),
        }
    }
}

/// What turns a body into an argument.
pub trait Kind {
    type Value<'a>;

    /// Tests the head, under a limit of at most `cap`. Where it refuses, says whether the marks are left to others.
    fn begin(request: &Request<'_>, cap: u64) -> Result<Self, (Refusal, bool)>
    where
        Self: Sized;

    fn limit(&self) -> u64;

    fn finish<'a>(&self, read: Read<'a>) -> Result<Self::Value<'a>, Refusal>;
}

/// An argument on its way.
pub struct Collector<'a, K> {
    reading: Reading<'a>,
    kind: Result<K, Option<Refusal>>,
}

impl<'a, K: Kind> Collector<'a, K> {
    /// Takes the marks, where the head does not leave them.
    pub fn of(request: &Request<'_>, marks: &mut Vec<Mark<'a>>) -> Collector<'a, K> {
        Collector::capped(request, marks, u64::MAX)
    }

    /// The same under a limit of at most `cap`.
    pub fn capped(request: &Request<'_>, marks: &mut Vec<Mark<'a>>, cap: u64) -> Collector<'a, K> {
        match K::begin(request, cap) {
            Ok(kind) => Collector {
                reading: Reading::of(std::mem::take(marks), kind.limit()),
                kind: Ok(kind),
            },
            Err((refusal, leaves)) => {
                if !leaves {
                    marks.clear();
                }
                Collector {
                    reading: Reading::of(Vec::new(), 0),
                    kind: Err(Some(refusal)),
                }
            }
        }
    }

    pub fn poll(&mut self) -> Option<Result<K::Value<'a>, Refusal>> {
        match &mut self.kind {
            Ok(kind) => Some(kind.finish(self.reading.poll()?)),
            Err(refusal) => refusal.take().map(Err),
        }
    }
}

/// The argument of a body that is there as a whole.
pub fn of_whole<'a, K: Kind>(
    request: &Request<'_>,
    body: &'a [u8],
) -> Result<K::Value<'a>, Refusal> {
    let kind = K::begin(request, u64::MAX).map_err(|(refusal, _)| refusal)?;
    let length = body.len() as u64;
    kind.finish(if length > kind.limit() {
        Err(Unread::TooLong(length))
    } else {
        Ok(Cow::Borrowed(body))
    })
}

const OVERFLOW: &str = "payload reached its limit";
pub const FAILED: &str = "payload read failed";
pub const CODED: &str = "content coding is not supported";
const IN_PAYLOAD: &str = "Error that occur during reading payload: ";

/// The bytes as they are.
pub struct WholeBytes {
    limit: u64,
}

impl Kind for WholeBytes {
    type Value<'a> = Cow<'a, [u8]>;

    fn begin(request: &Request<'_>, cap: u64) -> Result<WholeBytes, (Refusal, bool)> {
        test_type(request).map_err(|refusal| (refusal, true))?;
        WholeBytes::of_length(request, cap).map_err(|refusal| (refusal, false))
    }

    fn limit(&self) -> u64 {
        self.limit
    }

    fn finish<'a>(&self, read: Read<'a>) -> Result<Cow<'a, [u8]>, Refusal> {
        read.map_err(|unread| match unread {
            Unread::TooLong(_) => Refusal::of(413, OVERFLOW),
            Unread::Failed => Refusal::of(400, FAILED),
        })
    }
}

impl WholeBytes {
    /// Tests the declared length, and that the body is not coded.
    fn of_length(request: &Request<'_>, cap: u64) -> Result<WholeBytes, Refusal> {
        let limit = request.layers.payload().limit.min(cap);
        match request.headers.length() {
            Some(None) => return Err(Refusal::of(400, "payload length is unknown")),
            Some(Some(length)) if length > limit => return Err(Refusal::of(413, OVERFLOW)),
            _ => {}
        }
        if request.headers.has_coding() {
            return Err(Refusal::of(400, CODED));
        }
        Ok(WholeBytes { limit })
    }
}

/// Tests that the media type is the one that a layer requires.
fn test_type(request: &Request<'_>) -> Result<(), Refusal> {
    let Some(required) = request.layers.payload().required else {
        return Ok(());
    };
    match request.headers.media_type() {
        Err(_) => Err(Refusal::of(400, "can not parse content type")),
        Ok(None) => Err(Refusal::of(400, "Content-Type is expected")),
        Ok(Some(media_type)) if media_type != *required => {
            Err(Refusal::of(400, "Unexpected Content-Type"))
        }
        Ok(Some(_)) => Ok(()),
    }
}

/// Tests that the media type, where there is one, says UTF-8 or no charset.
pub fn test_charset(request: &Request<'_>) -> Result<(), &'static str> {
    let media_type = request.headers.media_type();
    let media_type = media_type.map_err(|_| "can not parse content type")?;
    let is_utf8 =
        |name: &[u8]| name.eq_ignore_ascii_case(b"utf-8") || name.eq_ignore_ascii_case(b"utf8");
    match media_type.as_ref().and_then(|it| it.param("charset")) {
        Some(name) if !is_utf8(name) => Err("unknown content encoding"),
        _ => Ok(()),
    }
}

/// Bytes that are UTF-8.
pub struct WholeText(WholeBytes);

impl Kind for WholeText {
    type Value<'a> = Cow<'a, [u8]>;

    fn begin(request: &Request<'_>, cap: u64) -> Result<WholeText, (Refusal, bool)> {
        test_type(request)
            .and_then(|()| test_charset(request).map_err(|text| Refusal::of(400, text)))
            .map_err(|refusal| (refusal, true))?;
        let bytes = WholeBytes::of_length(request, cap).map_err(|refusal| (refusal, false))?;
        Ok(WholeText(bytes))
    }

    fn limit(&self) -> u64 {
        self.0.limit
    }

    fn finish<'a>(&self, read: Read<'a>) -> Result<Cow<'a, [u8]>, Refusal> {
        let body = self.0.finish(read)?;
        match std::str::from_utf8(&body) {
            Ok(_) => Ok(body),
            Err(_) => Err(Refusal::of(400, "Can not decode body")),
        }
    }
}

/// An item in JSON.
pub struct JsonItem(JsonConfig);

impl Kind for JsonItem {
    type Value<'a> = Item<'a>;

    fn begin(request: &Request<'_>, cap: u64) -> Result<JsonItem, (Refusal, bool)> {
        let mut config = request.layers.json();
        config.limit = config.limit.min(cap);
        let refuse = |refusal: Refusal, leaves| Err((refusal.handled(config.has_handler), leaves));
        if config.needs_type && !is_json(request, config.allows_vendor) {
            return refuse(Refusal::of(400, "Content type error"), true);
        }
        let length = request.headers.get("content-length").map(text::trimmed);
        match length.and_then(|length| text::number(length, u64::MAX)) {
            Some(length) if length > config.limit => {
                let limit = config.limit;
                let text = format!(
                    "JSON payload ({length} bytes) is larger than allowed (limit: {limit} bytes)."
                );
                return refuse(Refusal::owned(413, text), false);
            }
            _ => {}
        }
        if request.headers.has_coding() {
            return refuse(Refusal::owned(400, format!("{IN_PAYLOAD}{CODED}")), false);
        }
        Ok(JsonItem(config))
    }

    fn limit(&self) -> u64 {
        self.0.limit
    }

    fn finish<'a>(&self, read: Read<'a>) -> Result<Item<'a>, Refusal> {
        let refusal = match read {
            Ok(body) => match item_of(body, |body| Item::read_json(body)) {
                Ok(item) => return Ok(item),
                Err(fault) => Refusal::owned(400, format!("Json deserialize error: {fault}")),
            },
            Err(Unread::TooLong(_)) => {
                let limit = self.0.limit;
                let text = format!("JSON payload has exceeded limit ({limit} bytes).");
                Refusal::owned(413, text)
            }
            Err(Unread::Failed) => Refusal::owned(400, format!("{IN_PAYLOAD}{FAILED}")),
        };
        Err(refusal.handled(self.0.has_handler))
    }
}

/// Whether the media type is one of JSON.
fn is_json(request: &Request<'_>, allows_vendor: bool) -> bool {
    match request.headers.media_type() {
        Ok(Some(media_type)) => {
            media_type.is_json() || (allows_vendor && media_type.is_alone("text/x-json"))
        }
        _ => false,
    }
}

/// Reads an item, which borrows from the body where the body is borrowed.
fn item_of<'a>(
    body: Cow<'a, [u8]>,
    read: impl for<'b> Fn(&'b [u8]) -> Result<Item<'b>, &'static str>,
) -> Result<Item<'a>, &'static str> {
    match body {
        Cow::Borrowed(body) => read(body),
        Cow::Owned(body) => read(&body).map(Item::into_owned),
    }
}

/// An item in a form.
pub struct FormItem(FormConfig);

impl Kind for FormItem {
    type Value<'a> = Item<'a>;

    fn begin(request: &Request<'_>, cap: u64) -> Result<FormItem, (Refusal, bool)> {
        let mut config = request.layers.form();
        config.limit = config.limit.min(cap);
        let refuse = |refusal: Refusal, leaves| Err((refusal.handled(config.has_handler), leaves));
        if !is_form(request) {
            return refuse(Refusal::of(415, "Content type error."), true);
        }
        match request.headers.length() {
            Some(None) => return refuse(Refusal::of(411, "Payload size is now known."), true),
            Some(Some(length)) if length > config.limit => {
                return refuse(too_long(length, config.limit), false);
            }
            _ => {}
        }
        if request.headers.has_coding() {
            return refuse(Refusal::owned(400, format!("{IN_PAYLOAD}{CODED}.")), false);
        }
        Ok(FormItem(config))
    }

    fn limit(&self) -> u64 {
        self.0.limit
    }

    fn finish<'a>(&self, read: Read<'a>) -> Result<Item<'a>, Refusal> {
        let refusal = match read {
            Ok(body) => match item_of(body, |body| Item::read_form(body)) {
                Ok(item) => return Ok(item),
                Err(fault) => Refusal::owned(400, format!("Parse error: {fault}.")),
            },
            Err(Unread::TooLong(length)) => too_long(length, self.0.limit),
            Err(Unread::Failed) => Refusal::owned(400, format!("{IN_PAYLOAD}{FAILED}.")),
        };
        Err(refusal.handled(self.0.has_handler))
    }
}

fn too_long(length: u64, limit: u64) -> Refusal {
    let text = format!(
        "URL encoded payload is larger ({length} bytes) than allowed (limit: {limit} bytes)."
    );
    Refusal::owned(413, text)
}

/// Whether the media type is that of forms, and can be read.
fn is_form(request: &Request<'_>) -> bool {
    let Some(value) = request.headers.get("content-type") else {
        return false;
    };
    let essence = value.split(|byte| *byte == b';').next().unwrap_or(value);
    text::trimmed(essence).eq_ignore_ascii_case(b"application/x-www-form-urlencoded")
        && test_charset(request).is_ok()
}
