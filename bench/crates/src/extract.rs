//! What turns bodies into arguments: tests of the head, and of what came.
use crate::body::{Collect, Unread};
use crate::item::Item;
use crate::layer::{FormConfig, JsonConfig};
use crate::refusal::{FormError, JsonError, PayloadError, Refusal};
use crate::request::Request;
use crate::script::Mark;
use crate::text;
use bytes::Bytes;
use http::header::{CONTENT_ENCODING, CONTENT_LENGTH, CONTENT_TYPE};
use mime::Mime;

/// A Content-Type that is no media type.
struct NoMediaType;

impl From<NoMediaType> for Refusal {
    fn from(_: NoMediaType) -> Self {
        Refusal::bad_request("can not parse content type")
    }
}

/// The bytes of a body, once its head is tested.
pub fn bytes(request: &Request, marks: Vec<Mark>) -> Result<Collect, Refusal> {
    if let Some(required) = &request.payload().required {
        test_required(media_type(request)?.as_ref(), required)?;
    }
    of_length(request, marks)
}

/// The same of a text, which is tested when it is there.
pub fn text(request: &Request, marks: Vec<Mark>) -> Result<Collect, Refusal> {
    let media_type = media_type(request)?;
    if let Some(required) = &request.payload().required {
        test_required(media_type.as_ref(), required)?;
    }
    if !media_type.is_none_or(|it| is_utf8(&it)) {
        return Err(Refusal::bad_request("unknown content encoding"));
    }
    of_length(request, marks)
}

/// Tests that the media type is the one that a layer requires.
fn test_required(media_type: Option<&Mime>, required: &Mime) -> Result<(), Refusal> {
    match media_type {
        None => Err(Refusal::bad_request("Content-Type is expected")),
        Some(media_type) if media_type != required => {
            Err(Refusal::bad_request("Unexpected Content-Type"))
        }
        Some(_) => Ok(()),
    }
}

/// Whether the media type, where there is one, can be read and says UTF-8 or no charset.
pub fn is_readable(request: &Request) -> bool {
    matches!(media_type(request), Ok(media_type) if media_type.as_ref().is_none_or(is_utf8))
}

fn is_utf8(media_type: &Mime) -> bool {
    let charset = media_type.get_param(mime::CHARSET);
    charset.is_none_or(|charset| charset == mime::UTF_8 || charset == "utf8")
}

/// Tests the declared length, and that the body is not coded.
fn of_length(request: &Request, marks: Vec<Mark>) -> Result<Collect, Refusal> {
    let limit = request.payload().limit;
    match length(request) {
        Some(None) => return Err(PayloadError::UnknownLength.into()),
        Some(Some(length)) if length > limit => return Err(PayloadError::Overflow.into()),
        _ => {}
    }
    if is_coded(request) {
        return Err(PayloadError::Coded.into());
    }
    Ok(Collect::new(marks, limit))
}

pub fn bytes_of(read: Result<Bytes, Unread>) -> Result<Bytes, Refusal> {
    read.map_err(|unread| match unread {
        Unread::TooLong(_) => PayloadError::Overflow.into(),
        Unread::Failed => PayloadError::Failed.into(),
    })
}

pub fn text_of(read: Result<Bytes, Unread>) -> Result<Bytes, Refusal> {
    let body = bytes_of(read)?;
    match std::str::from_utf8(&body) {
        Ok(_) => Ok(body),
        Err(_) => Err(Refusal::bad_request("Can not decode body")),
    }
}

/// Tests the head of a JSON body.
pub fn test_json(request: &Request, config: JsonConfig) -> Result<(), JsonError> {
    if config.needs_type && !is_json(request, config.allows_vendor) {
        return Err(JsonError::MediaType);
    }
    let limit = config.limit;
    let declared = request.header(CONTENT_LENGTH).map(<[u8]>::trim_ascii);
    match declared.and_then(|length| text::number(length, u64::MAX)) {
        Some(length) if length > limit => Err(JsonError::DeclaredTooLong { length, limit }),
        _ if is_coded(request) => Err(JsonError::Payload(PayloadError::Coded)),
        _ => Ok(()),
    }
}

pub fn json_of(read: Result<Bytes, Unread>, limit: u64) -> Result<Item, JsonError> {
    match read {
        Ok(body) => Item::read_json(&body).map_err(JsonError::NoItem),
        Err(Unread::TooLong(_)) => Err(JsonError::TooLong { limit }),
        Err(Unread::Failed) => Err(JsonError::Payload(PayloadError::Failed)),
    }
}

/// Tests the head of a form.
pub fn test_form(request: &Request, config: FormConfig) -> Result<(), FormError> {
    if !is_form(request) {
        return Err(FormError::MediaType);
    }
    let limit = config.limit;
    match length(request) {
        Some(None) => Err(FormError::UnknownLength),
        Some(Some(length)) if length > limit => Err(FormError::TooLong { length, limit }),
        _ if is_coded(request) => Err(FormError::Payload(PayloadError::Coded)),
        _ => Ok(()),
    }
}

pub fn form_of(read: Result<Bytes, Unread>, limit: u64) -> Result<Item, FormError> {
    match read {
        Ok(body) => Item::read_form(&body).map_err(FormError::NoItem),
        Err(Unread::TooLong(length)) => Err(FormError::TooLong { length, limit }),
        Err(Unread::Failed) => Err(FormError::Payload(PayloadError::Failed)),
    }
}

/// An item of a body that is there as a whole, and a word that says which: `left` in JSON, else
/// `right` in a form, else the refusal of the first.
pub fn either_of(request: &Request, body: Bytes) -> Result<(&'static str, Item), Refusal> {
    let (json, form) = (request.json(), request.form());
    let within = |limit| match body.len() as u64 {
        length if length > limit => Err(Unread::TooLong(length)),
        _ => Ok(body.clone()),
    };
    let left = test_json(request, json).and_then(|()| json_of(within(json.limit), json.limit));
    let refusal = match left {
        Ok(item) => return Ok(("left ", item)),
        Err(error) => Refusal::from(error).handled(json.has_handler),
    };
    match test_form(request, form).and_then(|()| form_of(within(form.limit), form.limit)) {
        Ok(item) => Ok(("right ", item)),
        Err(_) => Err(refusal),
    }
}

/// The media type, `None` where no header says it.
fn media_type(request: &Request) -> Result<Option<Mime>, NoMediaType> {
    let Some(value) = request.headers.get(CONTENT_TYPE) else {
        return Ok(None);
    };
    let text = value.to_str().map_err(|_| NoMediaType)?;
    text.parse().map(Some).map_err(|_| NoMediaType)
}

/// Whether the media type is one of JSON.
fn is_json(request: &Request, allows_vendor: bool) -> bool {
    let media_type = media_type(request).ok().flatten();
    media_type.is_some_and(|it| {
        it.subtype() == mime::JSON
            || it.suffix() == Some(mime::JSON)
            || (allows_vendor && it == "text/x-json")
    })
}

/// Whether the media type is that of forms, and can be read.
fn is_form(request: &Request) -> bool {
    let media_type = media_type(request).ok().flatten();
    let essence = mime::APPLICATION_WWW_FORM_URLENCODED.essence_str();
    media_type.is_some_and(|it| it.essence_str() == essence && is_utf8(&it))
}

/// The declared length, `None` in it where the value is no number.
fn length(request: &Request) -> Option<Option<u64>> {
    Some(text::number(request.header(CONTENT_LENGTH)?, u64::MAX))
}

/// Whether the body is coded.
fn is_coded(request: &Request) -> bool {
    let coding = request.header(CONTENT_ENCODING).map(<[u8]>::trim_ascii);
    coding.is_some_and(|coding| !coding.eq_ignore_ascii_case(b"identity"))
}
