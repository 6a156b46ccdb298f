//! Media types and Content-Type.
use crate::map::{Header, Headers};
use crate::text::is_token;

/// A media type, in lower case but for the values of parameters other than `charset`.
pub struct MediaType {
    essence: String,
    params: Vec<(String, String)>,
}

pub struct ContentType(MediaType);

impl MediaType {
    pub fn read(text: &str) -> Option<MediaType> {
        let (essence, mut behind) = cut(text);
        let essence = match behind {
            Some(_) => essence.trim_ascii_end(),
            None => essence,
        };
        let (type_, subtype) = essence.split_once('/')?;
        if !is_token(type_) || !is_token(subtype) {
            return None;
        }
        let mut params = Vec::new();
        while let Some(text) = behind {
            let (piece, next) = cut(text);
            let piece = piece.trim_ascii_start();
            match next {
                None if piece.is_empty() => {}
                None => params.push(read_param(piece)?),
                Some(_) => params.push(read_param(piece.trim_ascii_end())?),
            }
            behind = next;
        }
        Some(MediaType {
            essence: essence.to_ascii_lowercase(),
            params,
        })
    }

    pub fn print(&self, out: &mut String) {
        out.push_str(&self.essence);
        for (name, value) in &self.params {
            out.push_str("; ");
            out.push_str(name);
            out.push('=');
            if is_token(value) {
                out.push_str(value);
            } else {
                push_quoted(out, value);
            }
        }
    }
}

fn push_quoted(out: &mut String, value: &str) {
    out.push('"');
    for piece in value.split_inclusive(['"', '\\']) {
        match piece.as_bytes() {
            [before @ .., b'"' | b'\\'] => {
                let (before, mark) = piece.split_at(before.len());
                out.push_str(before);
                out.push('\\');
                out.push_str(mark);
            }
            _ => out.push_str(piece),
        }
    }
    out.push('"');
}

/// What stands before the first semicolon outside of quotes, and what stands after it, if any.
fn cut(text: &str) -> (&str, Option<&str>) {
    let (mut quoted, mut kept) = (false, false);
    for (at, byte) in text.bytes().enumerate() {
        match byte {
            _ if kept => kept = false,
            b'"' => quoted = !quoted,
            b'\\' if quoted => kept = true,
            b';' if !quoted => return (&text[..at], Some(&text[at + 1..])),
            _ => {}
        }
    }
    (text, None)
}

/// A name, an equals sign, and a token or quoted text.
fn read_param(piece: &str) -> Option<(String, String)> {
    let (name, text) = piece.split_once('=')?;
    if !is_token(name) {
        return None;
    }
    let name = name.to_ascii_lowercase();
    let mut value = if is_token(text) {
        text.to_owned()
    } else {
        unquoted(text)?
    };
    if name == "charset" {
        value.make_ascii_lowercase();
    }
    Some((name, value))
}

/// What stands between the quotes of a text that is quoted as a whole. A backslash keeps the next character.
fn unquoted(text: &str) -> Option<String> {
    let inside = text.strip_prefix('"')?;
    let mut value = String::with_capacity(inside.len());
    let mut chars = inside.chars();
    loop {
        match chars.next()? {
            '"' => break,
            '\\' => value.push(chars.next()?),
            char => value.push(char),
        }
    }
    chars.as_str().is_empty().then_some(value)
}

impl Header for ContentType {
    fn read(headers: &Headers) -> Option<Self> {
        MediaType::read(headers.first_text("content-type")?).map(ContentType)
    }

    fn print(&self, out: &mut String) {
        self.0.print(out);
    }
}
