//! Typed headers: the fields of a row are the values of the header, in order.
use crate::answers::{Answer, in_brackets, printed, text};
use crate::entities;
use crate::maps::map_of;
use http_header::{HeaderMap, HeaderValue};
use std::alloc::Global;
use std::fmt::Display;
use web_headers::{
    Accept, AcceptCharset, AcceptEncoding, AcceptLanguage, Allow, CacheControl, ContentLanguage,
    ContentLength, ContentType, Date, Expires, Header, IfModifiedSince, IfUnmodifiedSince,
    LastModified, TryIntoHeaderValue,
};
use web_texts::{Duplicate, Fail, NoMemory, ParseError};

pub(crate) fn answer(alloc: Global, name: &str, values: &[&str]) -> Answer {
    match name {
        "Accept" => read::<Accept>(alloc, values),
        "Accept-Charset" => read::<AcceptCharset>(alloc, values),
        "Accept-Encoding" => read::<AcceptEncoding>(alloc, values),
        "Accept-Language" => read::<AcceptLanguage>(alloc, values),
        "Allow" => read::<Allow>(alloc, values),
        "Cache-Control" => read::<CacheControl>(alloc, values),
        "Content-Language" => read::<ContentLanguage>(alloc, values),
        "Content-Length" => read::<ContentLength>(alloc, values),
        "Content-Type" => read::<ContentType>(alloc, values),
        _ => date_answer(alloc, name, values),
    }
}

fn date_answer(alloc: Global, name: &str, values: &[&str]) -> Answer {
    match name {
        "Date" => read::<Date>(alloc, values),
        "Expires" => read::<Expires>(alloc, values),
        "If-Modified-Since" => read::<IfModifiedSince>(alloc, values),
        "If-Unmodified-Since" => read::<IfUnmodifiedSince>(alloc, values),
        "Last-Modified" => read::<LastModified>(alloc, values),
        _ => entities::header_answer(alloc, name, values),
    }
}

/// The text that the header of these values prints, in brackets, or `refused`.
pub(crate) fn read<H: Header + Display + Duplicate + PartialEq + TryIntoHeaderValue>(
    alloc: Global,
    values: &[&str],
) -> Answer {
    match header_of::<H>(alloc, values)? {
        Ok(header) => printed_header(alloc, header),
        Err(answer) => Ok(answer),
    }
}

/// The header of these values, or the answer where there is none.
pub(crate) fn header_of<H: Header>(
    alloc: Global,
    values: &[&str],
) -> Result<Result<H, String>, NoMemory> {
    match map_of(alloc, &H::name(), values)? {
        Some(map) => header_in(alloc, &map),
        None => Ok(Err(text(alloc, "no value of a header")?)),
    }
}

fn header_in<H: Header>(
    alloc: Global,
    map: &HeaderMap<HeaderValue>,
) -> Result<Result<H, String>, NoMemory> {
    match H::parse(alloc, map) {
        Ok(header) => Ok(Ok(header)),
        Err(Fail::Of(ParseError::Header)) => Ok(Err(text(alloc, "refused")?)),
        Err(Fail::NoMemory) => Err(NoMemory),
    }
}

/// The text that a header prints, in brackets, if its value has this text too, or `no value`.
pub(crate) fn printed_header<H: Display + Duplicate + PartialEq + TryIntoHeaderValue>(
    alloc: Global,
    header: H,
) -> Answer {
    let printed = printed(alloc, &header)?;
    match has_value(alloc, header, printed.as_str())? {
        Some(true) => in_brackets(alloc, printed.as_str()),
        Some(false) => text(alloc, "another value"),
        None => text(alloc, "no value"),
    }
}

/// Whether a header's value has this text, or `None` where it has no value.
fn has_value<H: TryIntoHeaderValue>(
    alloc: Global,
    header: H,
    text: &str,
) -> Result<Option<bool>, NoMemory> {
    match header.try_into_value(alloc) {
        Ok(value) => Ok(Some(value.as_bytes() == text.as_bytes())),
        Err(Fail::NoMemory) => Err(NoMemory),
        Err(Fail::Of(_)) => Ok(None),
    }
}
