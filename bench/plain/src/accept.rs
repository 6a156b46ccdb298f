//! Accept, and the order of what it names.
use crate::headers::{Headers, is_header_text};
use crate::media_type::{self, MediaType};
use crate::quality;
use crate::text::trimmed;
use std::cmp::Reverse;

/// Media types, the preferred ones first.
pub struct Accept<'a>(Vec<Item<'a>>);

struct Item<'a> {
    media_type: MediaType<'a>,
    /// Thousandths of quality, and how exact the media type is.
    rank: (u16, u8),
}

impl<'a> Accept<'a> {
    /// Reads the header, `None` where a value is no header text. Items that cannot be read are left out.
    pub fn read(headers: &Headers<'a>) -> Option<Accept<'a>> {
        let mut items = Vec::new();
        for value in headers.all("accept") {
            if !is_header_text(value) {
                return None;
            }
            let texts = value.split(|byte| *byte == b',').map(trimmed);
            items.extend(texts.filter_map(Item::read));
        }
        items.sort_by_key(|item| Reverse(item.rank));
        Some(Accept(items))
    }

    pub fn text(&self) -> Vec<u8> {
        let mut out = Vec::with_capacity(64 * self.0.len());
        for (at, item) in self.0.iter().enumerate() {
            if at > 0 {
                out.extend_from_slice(b", ");
            }
            item.media_type.put(&mut out);
        }
        out
    }
}

impl<'a> Item<'a> {
    /// A media type and, after the last semicolon, perhaps a quality.
    fn read(text: &'a [u8]) -> Option<Item<'a>> {
        let (text, quality) = quality::split(text)?;
        let media_type = media_type::read(text)?;
        Some(Item {
            rank: (quality, media_type.exactness()),
            media_type,
        })
    }
}
