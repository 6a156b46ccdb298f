//! Targets of requests: a path, an asterisk, an authority, or a scheme with an authority and a path.

use std::borrow::Cow;

/// Longer targets are none.
const MOST: usize = 65_534;

pub struct Target<'a> {
    /// As it was written: schemes are compared without regard to case.
    pub scheme: Option<&'a str>,
    pub authority: Option<&'a str>,
    /// With the query where there is one.
    pub path_and_query: &'a str,
}

impl<'a> Target<'a> {
    /// Without the query.
    pub fn path(&self) -> &'a str {
        self.path_and_query
            .split_once('?')
            .map_or(self.path_and_query, |cut| cut.0)
    }

    /// Without the question mark, and empty where there is none.
    pub fn query(&self) -> &'a str {
        self.path_and_query.split_once('?').map_or("", |cut| cut.1)
    }

    /// The scheme in lower case, `http` where there is none.
    pub fn lower_scheme(&self) -> Cow<'a, str> {
        match self.scheme {
            None => Cow::Borrowed("http"),
            Some(scheme) => Cow::Owned(scheme.to_ascii_lowercase()),
        }
    }
}

/// Reads a target, or answers `None` where the bytes are none. A fragment may be any bytes, and is dropped.
pub fn read(bytes: &[u8]) -> Option<Target<'_>> {
    if bytes.len() > MOST {
        return None;
    }
    let fragment = bytes.iter().position(|byte| *byte == b'#');
    let text = std::str::from_utf8(&bytes[..fragment.unwrap_or(bytes.len())]).ok()?;
    if (text == "*" && fragment.is_none()) || text.starts_with('/') {
        return Some(Target {
            scheme: None,
            authority: None,
            path_and_query: path_and_query(text)?,
        });
    }
    if fragment.is_none() && is_authority(text) {
        return Some(Target {
            scheme: None,
            authority: Some(text),
            path_and_query: "",
        });
    }
    let (scheme, rest) = text.split_once("://")?;
    let end = rest.find(['/', '?']).unwrap_or(rest.len());
    let (authority, tail) = rest.split_at(end);
    if scheme.len() > 64 || !scheme.bytes().all(is_scheme_byte) || !is_authority(authority) {
        return None;
    }
    Some(Target {
        scheme: Some(scheme),
        authority: Some(authority),
        path_and_query: match tail {
            "" if fragment.is_none() => "/",
            tail => path_and_query(tail)?,
        },
    })
}

/// The text, where it is a path with a query.
fn path_and_query(text: &str) -> Option<&str> {
    let (path, query) = text.split_once('?').unwrap_or((text, ""));
    (path.bytes().all(is_path_byte) && query.bytes().all(is_query_byte)).then_some(text)
}

/// Whether the text is a host, perhaps with user information before it and a port after it.
fn is_authority(text: &str) -> bool {
    let (mut colons, mut opened, mut closed, mut percent) = (0, 0, 0, 0);
    for byte in text.bytes() {
        match byte {
            b':' if colons < 8 => colons += 1,
            b'[' if opened == 0 && percent == 0 => opened += 1,
            b']' if opened > closed => {
                closed += 1;
                (colons, percent) = (0, 0);
            }
            b'@' => (colons, percent) = (0, 0),
            b'%' => percent += 1,
            b':' | b'[' | b']' => return false,
            byte if !is_authority_byte(byte) => return false,
            _ => {}
        }
    }
    !text.is_empty() && opened == closed && colons <= 1 && percent == 0 && !text.ends_with('@')
}

fn is_scheme_byte(byte: u8) -> bool {
    byte.is_ascii_alphanumeric() || b"+-.~".contains(&byte)
}

fn is_authority_byte(byte: u8) -> bool {
    matches!(byte, b'!' | b'$'..=b'.' | b'0'..=b';' | b'=' | b'@'..=b'[' | b']' | b'_' | b'a'..=b'z' | b'~')
}

fn is_path_byte(byte: u8) -> bool {
    matches!(byte, b'!'..=b'"' | b'$'..=b';' | b'=' | b'@'..=b'_' | b'a'..=b'~' | 0x80..)
}

fn is_query_byte(byte: u8) -> bool {
    matches!(byte, b'!' | b'$'..=b';' | b'=' | b'?'..=b'~' | 0x80..)
}
