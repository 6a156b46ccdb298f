//! The cookies of a request.
use cookie::Cookie;
use http::header::{COOKIE, HeaderMap};

/// Names and values, or `None` where a header is no UTF-8. What cannot be read is left out.
pub fn text(headers: &HeaderMap) -> Option<String> {
    let mut out = String::new();
    for value in headers.get_all(COOKIE) {
        let parts = std::str::from_utf8(value.as_bytes()).ok()?.split(';');
        for cookie in parts.filter_map(|part| Cookie::parse_encoded(part).ok()) {
            if !out.is_empty() {
                out.push(' ');
            }
            for part in [cookie.name(), "=", cookie.value()] {
                out.push_str(part);
            }
        }
    }
    Some(out)
}
