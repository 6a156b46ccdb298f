//! Where a request came from, by its header fields.
use crate::answers::{Answer, no_such_call, shown, text};
use crate::maps::headers_of;
use http_header::{HeaderMap, HeaderValue};
use std::alloc::Global;
use web_forwarded::read_origin;

/// The fields of a row are those of a head, `NAME: VALUE`.
pub(crate) fn answer(alloc: Global, name: &str, fields: &[&str]) -> Answer {
    let Some(headers) = headers_of(alloc, fields)? else {
        return text(alloc, "no header fields");
    };
    match name {
        "relative" => origin(alloc, &headers, (None, None), false),
        "absolute" => origin(alloc, &headers, (Some("auth"), Some("http")), false),
        "secure" => origin(alloc, &headers, (None, None), true),
        _ => no_such_call(alloc),
    }
}

/// The host, the scheme and the client, for a target with this authority and scheme and a worker
/// that serves `localhost:8080`.
fn origin(
    alloc: Global,
    headers: &HeaderMap<HeaderValue>,
    target: (Option<&str>, Option<&str>),
    secure: bool,
) -> Answer {
    let (authority, scheme) = target;
    let found = read_origin(headers, authority, scheme, "localhost:8080", secure);
    shown(alloc, (found.host, found.scheme, found.client))
}
