//! Qualities of the items of a list.
use crate::text::{trimmed, trimmed_end};
use crate::thousandths::{GREATEST, read};

/// An item without its quality, which may stand after its last semicolon, and the quality in thousandths.
pub fn split(item: &[u8]) -> Option<(&[u8], u16)> {
    let Some(at) = item.iter().rposition(|byte| *byte == b';') else {
        return Some((item, GREATEST));
    };
    match trimmed(&item[at + 1..]) {
        [] | [_] => None,
        [b'q' | b'Q', b'=', digits @ ..] => Some((trimmed_end(&item[..at]), read(digits)?)),
        _ => Some((item, GREATEST)),
    }
}
