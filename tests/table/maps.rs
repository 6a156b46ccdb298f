//! Header fields, out of the fields of a row.
use http_header::{HeaderMap, HeaderName, HeaderValue};
use std::alloc::Global;
use web_texts::NoMemory;

/// Stands for the byte FF, which is in no text.
const NO_TEXT: char = '\u{fffd}';

/// What stands between the name and the value of a header field.
pub(crate) const BETWEEN: &str = ": ";

/// The map that has these values under one name, or `None` where one of them may stand in no head.
pub(crate) fn map_of(
    alloc: Global,
    name: &HeaderName,
    values: &[&str],
) -> Result<Option<HeaderMap<HeaderValue>>, NoMemory> {
    let mut map = HeaderMap::new(alloc);
    for value in values {
        if !is_appended(alloc, &mut map, name, value)? {
            return Ok(None);
        }
    }
    Ok(Some(map))
}

/// The head with these fields, or `None` where one of them is no header field.
pub(crate) fn headers_of(
    alloc: Global,
    fields: &[&str],
) -> Result<Option<HeaderMap<HeaderValue>>, NoMemory> {
    let mut headers = HeaderMap::new(alloc);
    for field in fields {
        if !is_field_appended(alloc, &mut headers, field)? {
            return Ok(None);
        }
    }
    Ok(Some(headers))
}

/// Appends a field, `NAME: VALUE`, and gives whether it is one.
fn is_field_appended(
    alloc: Global,
    headers: &mut HeaderMap<HeaderValue>,
    field: &str,
) -> Result<bool, NoMemory> {
    match field.split_once(BETWEEN) {
        Some((name, value)) => is_named_appended(alloc, headers, name, value),
        None => Ok(false),
    }
}

/// Appends a value under a name, and gives whether they are a header field.
pub(crate) fn is_named_appended(
    alloc: Global,
    headers: &mut HeaderMap<HeaderValue>,
    name: &str,
    value: &str,
) -> Result<bool, NoMemory> {
    match HeaderName::from_bytes(alloc, name.as_bytes()) {
        Ok(name) => is_appended(alloc, headers, &name, value),
        Err(_) => Ok(false),
    }
}

/// Appends a value, and gives whether it may stand in a head.
pub(crate) fn is_appended(
    alloc: Global,
    map: &mut HeaderMap<HeaderValue>,
    name: &HeaderName,
    value: &str,
) -> Result<bool, NoMemory> {
    let bytes = bytes_of(alloc, value)?;
    let Ok(value) = HeaderValue::from_bytes(alloc, bytes.as_slice()) else {
        return Ok(false);
    };
    match map.append(name, value) {
        Ok(_) => Ok(true),
        Err(_) => Err(NoMemory),
    }
}

/// The bytes of a text, in which `NO_TEXT` stands for FF.
fn bytes_of(alloc: Global, text: &str) -> Result<Vec<u8>, NoMemory> {
    let mut bytes = Vec::new(alloc);
    for (i, part) in text.split(NO_TEXT).enumerate() {
        if i > 0 {
            bytes.push(0xff)?;
        }
        bytes.extend_from_slice(part.as_bytes())?;
    }
    Ok(bytes)
}
