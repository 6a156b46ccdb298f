//! Entity tags (RFC 9110, section 8.8.3), and conditions that list them.
use http::header::{HeaderMap, HeaderName};
use std::fmt::{self, Display, Formatter};

/// The tag of a version of a document.
pub struct Tag<'a> {
    is_weak: bool,
    /// Without the quotes.
    text: &'a str,
}

impl<'a> Tag<'a> {
    pub fn strong(text: &'a str) -> Tag<'a> {
        Tag {
            is_weak: false,
            text,
        }
    }

    pub fn weak(text: &'a str) -> Tag<'a> {
        Tag {
            is_weak: true,
            text,
        }
    }

    pub fn read(text: &'a str) -> Option<Tag<'a>> {
        let (is_weak, quoted) = match text.strip_prefix("W/") {
            Some(quoted) => (true, quoted),
            None => (false, text),
        };
        let text = quoted.strip_prefix('"')?.strip_suffix('"')?;
        let is_tag = text.bytes().all(|byte| matches!(byte, 0x21 | 0x23..=0x7E));
        is_tag.then_some(Tag { is_weak, text })
    }

    /// Whether both are strong and have the same text.
    pub fn is_strongly(&self, other: &Tag<'_>) -> bool {
        !self.is_weak && !other.is_weak && self.text == other.text
    }

    /// Whether both have the same text.
    pub fn is_weakly(&self, other: &Tag<'_>) -> bool {
        self.text == other.text
    }
}

impl Display for Tag<'_> {
    fn fmt(&self, f: &mut Formatter<'_>) -> fmt::Result {
        let prefix = if self.is_weak { "W/" } else { "" };
        write!(f, "{prefix}\"{}\"", self.text)
    }
}

/// Whether the tags of a header are an asterisk, or one of them is such a tag. They are tested where
/// they stand, and none is kept. `None` where the header is absent, or a value of it is no text.
pub fn any(
    headers: &HeaderMap,
    name: HeaderName,
    is_it: impl Fn(&Tag<'_>) -> bool,
) -> Option<bool> {
    let values = headers.get_all(name);
    if values.iter().next()?.as_bytes().trim_ascii() == b"*" {
        return Some(true);
    }
    let mut found = false;
    for value in values {
        let text = value.to_str().ok()?;
        found = found || items(text).any(|item| Tag::read(item).is_some_and(|tag| is_it(&tag)));
    }
    Some(found)
}

/// What stands between commas outside of quotes, without blanks around.
fn items(text: &str) -> impl Iterator<Item = &str> {
    let mut is_quoted = false;
    let is_end = move |letter| {
        is_quoted ^= letter == '"';
        letter == ',' && !is_quoted
    };
    text.split(is_end).map(str::trim_ascii)
}
