//! Names and values: of forms, of queries and of a path's parameters.
use crate::text::hex_value;
use std::borrow::Cow;

/// Names and values as they stand, and how they are meant.
pub trait Pairs<'a>: Iterator<Item = (&'a [u8], &'a [u8])> {
    fn is_named(name: &[u8], wanted: &str) -> bool;

    fn value(raw: &'a [u8]) -> Cow<'a, str>;
}

/// The pairs of a form (application/x-www-form-urlencoded).
pub struct FormPairs<'a>(pub &'a [u8]);

impl<'a> Iterator for FormPairs<'a> {
    type Item = (&'a [u8], &'a [u8]);

    fn next(&mut self) -> Option<Self::Item> {
        while !self.0.is_empty() {
            let (pair, rest) = cut(self.0, b'&');
            self.0 = rest;
            if !pair.is_empty() {
                return Some(cut(pair, b'='));
            }
        }
        None
    }
}

impl<'a> Pairs<'a> for FormPairs<'a> {
    fn is_named(name: &[u8], wanted: &str) -> bool {
        name == wanted.as_bytes() || (is_coded(name) && form_value(name) == wanted)
    }

    fn value(raw: &'a [u8]) -> Cow<'a, str> {
        form_value(raw)
    }
}

fn form_value(raw: &[u8]) -> Cow<'_, str> {
    if !is_coded(raw) {
        return String::from_utf8_lossy(raw);
    }
    let spaced = |byte: &u8| if *byte == b'+' { b' ' } else { *byte };
    text_of(decoded(raw, spaced))
}

fn is_coded(raw: &[u8]) -> bool {
    raw.iter().any(|byte| matches!(byte, b'%' | b'+'))
}

/// What stands before the first of these bytes, and what stands after it.
fn cut(bytes: &[u8], at: u8) -> (&[u8], &[u8]) {
    match bytes.iter().position(|byte| *byte == at) {
        Some(end) => (&bytes[..end], &bytes[end + 1..]),
        None => (bytes, b""),
    }
}

/// Parameters of a path, as a script gives them.
pub struct PathPairs<'a, 'r>(pub std::slice::Iter<'r, (&'a str, &'a str)>);

impl<'a> Iterator for PathPairs<'a, '_> {
    type Item = (&'a [u8], &'a [u8]);

    fn next(&mut self) -> Option<Self::Item> {
        let (name, value) = self.0.next()?;
        Some((name.as_bytes(), value.as_bytes()))
    }
}

impl<'a> Pairs<'a> for PathPairs<'a, '_> {
    fn is_named(name: &[u8], wanted: &str) -> bool {
        name == wanted.as_bytes()
    }

    fn value(raw: &'a [u8]) -> Cow<'a, str> {
        if !raw.contains(&b'%') {
            return String::from_utf8_lossy(raw);
        }
        text_of(decoded(raw, |byte| *byte))
    }
}

/// The bytes that are meant by percent signs with two hexadecimal digits, and each other byte by this.
pub fn decoded(raw: &[u8], other: impl Fn(&u8) -> u8) -> Vec<u8> {
    let mut bytes = Vec::with_capacity(raw.len());
    let mut rest = raw;
    while let Some((byte, behind)) = rest.split_first() {
        let coded = match rest {
            [b'%', high, low, ..] => hex_value(*high).zip(hex_value(*low)),
            _ => None,
        };
        rest = match coded {
            Some((high, low)) => {
                bytes.push(high << 4 | low);
                &behind[2..]
            }
            None => {
                bytes.push(other(byte));
                behind
            }
        };
    }
    bytes
}

/// As text, where what is no UTF-8 is replaced.
fn text_of<'a>(bytes: Vec<u8>) -> Cow<'a, str> {
    Cow::Owned(match String::from_utf8(bytes) {
        Ok(text) => text,
        Err(refused) => String::from_utf8_lossy(refused.as_bytes()).into_owned(),
    })
}

/// Adds a value of a form.
pub fn put_form_value(out: &mut Vec<u8>, value: &str) {
    for byte in value.bytes() {
        match byte {
            b'a'..=b'z' | b'A'..=b'Z' | b'0'..=b'9' | b'*' | b'-' | b'.' | b'_' => out.push(byte),
            b' ' => out.push(b'+'),
            _ => {
                let digit = |nibble| b"0123456789ABCDEF"[usize::from(nibble)];
                out.extend_from_slice(&[b'%', digit(byte >> 4), digit(byte & 15)]);
            }
        }
    }
}
