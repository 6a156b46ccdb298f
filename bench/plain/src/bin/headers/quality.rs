//! Qualities of items.
use crate::thousandths::{GREATEST, read};

/// An item without its quality, which may stand after its last semicolon, and the quality in thousandths.
pub fn split(text: &str) -> Option<(&str, u16)> {
    let Some((front, last)) = text.rsplit_once(';') else {
        return Some((text, GREATEST));
    };
    match last.trim_ascii().as_bytes() {
        [] | [_] => None,
        [b'q' | b'Q', b'=', digits @ ..] => Some((front.trim_ascii(), read(digits)?)),
        _ => Some((text, GREATEST)),
    }
}
