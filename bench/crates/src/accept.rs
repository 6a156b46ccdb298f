//! Accept, and the order of what it names.
use crate::text::ROOM;
use http::header::{ACCEPT, HeaderMap};
use mime::Mime;
use std::cmp::Reverse;
use std::fmt::{self, Write};

/// Media types, the preferred ones first.
pub struct Accept(Vec<Mime>);

struct Item {
    media_type: Mime,
    /// Thousandths of quality, and how exact the media type is.
    rank: (u16, u8),
}

impl Accept {
    /// Reads the header, `None` where a value is no header text. What cannot be read is left out.
    pub fn read(headers: &HeaderMap) -> Option<Accept> {
        let mut items = Vec::new();
        for value in headers.get_all(ACCEPT) {
            let texts = value.to_str().ok()?.split(',').map(str::trim_ascii);
            items.extend(texts.filter_map(Item::read));
        }
        items.sort_by_key(|item| Reverse(item.rank));
        Some(Accept(items.into_iter().map(|item| item.media_type).collect()))
    }

    pub fn text(&self) -> String {
        let mut out = String::new();
        for (at, media_type) in self.0.iter().enumerate() {
            if at > 0 {
                out.push_str(", ");
            }
            put(media_type, &mut out).expect(ROOM);
        }
        out
    }
}

impl Item {
    /// A media type and, after the last semicolon, perhaps a quality.
    fn read(text: &str) -> Option<Item> {
        let (mut text, mut quality) = (text, 1_000);
        if let Some((front, last)) = text.rsplit_once(';') {
            let last = last.trim_ascii();
            if last.len() < 2 {
                return None;
            }
            if let Some(digits) = last
                .strip_prefix(['q', 'Q'])
                .and_then(|it| it.strip_prefix('='))
            {
                quality = read_quality(digits.as_bytes())?;
                text = front.trim_ascii_end();
            }
        }
        let media_type: Mime = text.parse().ok()?;
        let rank = (quality, exactness(&media_type));
        Some(Item { media_type, rank })
    }
}

fn read_quality(text: &[u8]) -> Option<u16> {
    let (whole, fraction) = match text {
        [whole] => (whole, &[][..]),
        [whole, b'.', fraction @ ..] if fraction.len() <= 3 => (whole, fraction),
        _ => return None,
    };
    let (mut thousandths, mut unit) = (0, 100);
    for digit in fraction {
        let digit = digit.is_ascii_digit().then(|| u16::from(digit - b'0'))?;
        thousandths += digit * unit;
        unit /= 10;
    }
    match whole {
        b'0' => Some(thousandths),
        b'1' if thousandths == 0 => Some(1_000),
        _ => None,
    }
}

/// 2 for one that is exact, 1 for any of a type, 0 for any.
fn exactness(media_type: &Mime) -> u8 {
    match (media_type.type_(), media_type.subtype()) {
        (mime::STAR, _) => 0,
        (_, mime::STAR) => 1,
        _ => 2,
    }
}

/// Adds the text of a media type, with `; ` before each parameter.
fn put(media_type: &Mime, out: &mut String) -> fmt::Result {
    write!(out, "{}/{}", media_type.type_(), media_type.subtype())?;
    if let Some(suffix) = media_type.suffix() {
        write!(out, "+{suffix}")?;
    }
    for (name, value) in media_type.params() {
        if is_token(value.as_str()) {
            write!(out, "; {name}={value}")?;
        } else {
            let escaped = value.as_str().replace('\\', "\\\\").replace('"', "\\\"");
            write!(out, "; {name}=\"{escaped}\"")?;
        }
    }
    Ok(())
}

fn is_token(text: &str) -> bool {
    let is_token_byte =
        |byte: u8| byte.is_ascii_alphanumeric() || b"!#$%&'*+-.^_`|~".contains(&byte);
    !text.is_empty() && text.bytes().all(is_token_byte)
}
