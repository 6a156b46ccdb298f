//! Media types. They borrow from the text that they are read from.
use crate::text::{is_token, trimmed_end, trimmed_start};
use std::borrow::Cow;

pub struct MediaType<'a> {
    /// Type, subtype and suffix, which are compared without regard to case.
    essence: &'a [u8],
    params: Vec<Param<'a>>,
}

struct Param<'a> {
    /// Compared without regard to case.
    name: &'a [u8],
    /// Without its quotes. Only that of a charset is compared without regard to case.
    value: Cow<'a, [u8]>,
}

/// Reads a media type, or answers `None` where the text is none.
pub fn read(text: &[u8]) -> Option<MediaType<'_>> {
    let (essence, mut behind) = cut(text);
    let essence = match behind {
        Some(_) => trimmed_end(essence),
        None => essence,
    };
    let slash = essence.iter().position(|byte| *byte == b'/')?;
    if !is_token(&essence[..slash]) || !is_token(&essence[slash + 1..]) {
        return None;
    }
    let mut params = Vec::new();
    while let Some(text) = behind {
        let (piece, next) = cut(text);
        let piece = trimmed_start(piece);
        match next {
            None if piece.is_empty() => {}
            None => params.push(read_param(piece)?),
            Some(_) => params.push(read_param(trimmed_end(piece))?),
        }
        behind = next;
    }
    Some(MediaType { essence, params })
}

impl<'a> MediaType<'a> {
    /// The media type of this essence, without parameters.
    pub const fn of_essence(essence: &'a str) -> MediaType<'a> {
        MediaType {
            essence: essence.as_bytes(),
            params: Vec::new(),
        }
    }
}

impl MediaType<'_> {
    /// Type, subtype, and suffix where there is one.
    fn parts(&self) -> (&[u8], &[u8], Option<&[u8]>) {
        let slash = self.essence.iter().position(|byte| *byte == b'/');
        let (type_, rest) = self.essence.split_at(slash.unwrap_or(0));
        let rest = rest.strip_prefix(b"/").unwrap_or(rest);
        match rest.iter().rposition(|byte| *byte == b'+') {
            Some(at) if at > 0 && at + 1 < rest.len() => {
                (type_, &rest[..at], Some(&rest[at + 1..]))
            }
            _ => (type_, rest, None),
        }
    }

    /// Whether the subtype or the suffix is that of JSON.
    pub fn is_json(&self) -> bool {
        let (_, subtype, suffix) = self.parts();
        let is_json = |name: &[u8]| name.eq_ignore_ascii_case(b"json");
        is_json(subtype) || suffix.is_some_and(is_json)
    }

    pub fn has_essence(&self, essence: &str) -> bool {
        self.essence.eq_ignore_ascii_case(essence.as_bytes())
    }

    /// Whether it is this one, without parameters.
    pub fn is_alone(&self, essence: &str) -> bool {
        self.has_essence(essence) && self.params.is_empty()
    }

    /// 2 for one that is exact, 1 for any of a type, 0 for any.
    pub fn exactness(&self) -> u8 {
        match self.parts() {
            (b"*", _, _) => 0,
            (_, b"*", _) => 1,
            _ => 2,
        }
    }

    /// How exactly a range names this one, `None` where it does not: 3 with its parameters, 2 by its essence, 1 by its
    /// type alone, 0 as any.
    pub fn exactness_in(&self, range: &MediaType<'_>) -> Option<u8> {
        let is_essence = self.essence.eq_ignore_ascii_case(range.essence);
        if !range.params.is_empty() {
            return (is_essence && self.params == range.params).then_some(3);
        }
        if is_essence {
            return Some(2);
        }
        match range.essence.strip_suffix(b"/*")? {
            b"*" => Some(0),
            type_ => self.parts().0.eq_ignore_ascii_case(type_).then_some(1),
        }
    }

    /// Adds its text, in lower case but for the values of parameters other than `charset`.
    pub fn put(&self, out: &mut Vec<u8>) {
        put_lower(out, self.essence);
        for param in &self.params {
            out.extend_from_slice(b"; ");
            put_lower(out, param.name);
            out.push(b'=');
            let start = out.len();
            if is_token(&param.value) {
                out.extend_from_slice(&param.value);
            } else {
                put_quoted(out, &param.value);
            }
            if param.is_named("charset") {
                out[start..].make_ascii_lowercase();
            }
        }
    }

    /// The value of the first parameter of this name.
    pub fn param(&self, name: &str) -> Option<&[u8]> {
        let found = self.params.iter().find(|param| param.is_named(name))?;
        Some(&found.value)
    }
}

impl PartialEq for MediaType<'_> {
    fn eq(&self, other: &Self) -> bool {
        self.essence.eq_ignore_ascii_case(other.essence) && self.params == other.params
    }
}

impl Param<'_> {
    fn is_named(&self, name: &str) -> bool {
        self.name.eq_ignore_ascii_case(name.as_bytes())
    }
}

impl PartialEq for Param<'_> {
    fn eq(&self, other: &Self) -> bool {
        self.name.eq_ignore_ascii_case(other.name)
            && if self.is_named("charset") {
                self.value.eq_ignore_ascii_case(&other.value)
            } else {
                self.value == other.value
            }
    }
}

fn put_lower(out: &mut Vec<u8>, text: &[u8]) {
    let start = out.len();
    out.extend_from_slice(text);
    out[start..].make_ascii_lowercase();
}

fn put_quoted(out: &mut Vec<u8>, text: &[u8]) {
    out.push(b'"');
    for byte in text {
        if matches!(byte, b'"' | b'\\') {
            out.push(b'\\');
        }
        out.push(*byte);
    }
    out.push(b'"');
}

/// What stands before the first semicolon outside of quotes, and what stands after it, if any.
fn cut(text: &[u8]) -> (&[u8], Option<&[u8]>) {
    let (mut quoted, mut kept) = (false, false);
    for (at, byte) in text.iter().enumerate() {
        match byte {
            _ if kept => kept = false,
            b'"' => quoted = !quoted,
            b'\\' if quoted => kept = true,
            b';' if !quoted => return (&text[..at], Some(&text[at + 1..])),
            _ => {}
        }
    }
    (text, None)
}

/// A name, an equals sign, and a token or quoted text.
fn read_param(piece: &[u8]) -> Option<Param<'_>> {
    let at = piece.iter().position(|byte| *byte == b'=')?;
    let (name, text) = (&piece[..at], &piece[at + 1..]);
    if !is_token(name) {
        return None;
    }
    let value = if is_token(text) {
        Cow::Borrowed(text)
    } else {
        unquoted(text)?
    };
    Some(Param { name, value })
}

/// What stands between quotes. A backslash keeps the next byte.
fn unquoted(text: &[u8]) -> Option<Cow<'_, [u8]>> {
    let inside = text.strip_prefix(b"\"")?;
    let mut value = Vec::with_capacity(inside.len());
    let mut bytes = inside.iter();
    loop {
        match bytes.next()? {
            b'"' => break,
            b'\\' => value.push(*bytes.next()?),
            byte => value.push(*byte),
        }
    }
    bytes.as_slice().is_empty().then_some(Cow::Owned(value))
}
