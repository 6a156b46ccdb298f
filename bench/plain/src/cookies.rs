//! The cookies of a request.
use crate::pairs;
use crate::request::Request;
use crate::text::trimmed;

/// Names and values, or `None` where a header is no UTF-8. What cannot be read is left out.
pub fn text(request: &Request<'_>) -> Option<Vec<u8>> {
    let mut out = Vec::new();
    for value in request.headers.all("cookie") {
        std::str::from_utf8(value).ok()?;
        for part in value.split(|byte| *byte == b';') {
            put(&mut out, trimmed(part));
        }
    }
    Some(out)
}

fn put(out: &mut Vec<u8>, part: &[u8]) {
    let Some(at) = part.iter().position(|byte| *byte == b'=') else {
        return;
    };
    let decoded = |raw| String::from_utf8(pairs::decoded(trimmed(raw), |byte| *byte)).ok();
    let Some((name, value)) = decoded(&part[..at]).zip(decoded(&part[at + 1..])) else {
        return;
    };
    if name.is_empty() {
        return;
    }
    if !out.is_empty() {
        out.push(b' ');
    }
    out.extend_from_slice(name.as_bytes());
    out.push(b'=');
    out.extend_from_slice(value.as_bytes());
}
