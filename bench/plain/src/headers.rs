//! Headers of a request, and what arguments read of them.
use crate::media_type::{self, MediaType};
use crate::text::{self, is_token, trimmed};

/// Longer names are none.
const MOST_NAME: usize = 65_535;

/// Names and values in their order. They borrow from the script.
#[derive(Default)]
pub struct Headers<'a>(Vec<(&'a [u8], &'a [u8])>);

/// A Content-Type that is no media type.
pub struct NoMediaType;

impl<'a> Headers<'a> {
    pub fn len(&self) -> usize {
        self.0.len()
    }

    /// Adds a header, `None` where none may have this name and this value.
    pub fn add(&mut self, name: &'a [u8], value: &'a [u8]) -> Option<()> {
        is_header(name, value).then(|| self.0.push((name, value)))
    }

    /// The values of this name in their order.
    pub fn all(&self, name: &str) -> impl Iterator<Item = &'a [u8]> {
        let named = self.0.iter().filter(move |header| is_named(header, name));
        named.map(|header| header.1)
    }

    /// The first value of this name.
    pub fn get(&self, name: &str) -> Option<&'a [u8]> {
        Some(self.0.iter().find(|header| is_named(header, name))?.1)
    }

    /// The items of a list, `None` where the header is absent or a value of it is no header text.
    pub fn list(&self, name: &str) -> Option<impl Iterator<Item = &'a [u8]>> {
        let mut values = self.all(name).peekable();
        values.peek()?;
        if !values.all(is_header_text) {
            return None;
        }
        let values = self.all(name);
        let texts = values.flat_map(|value| value.split(|byte| *byte == b','));
        Some(texts.map(trimmed).filter(|text| !text.is_empty()))
    }

    /// The media type, `None` where no header says it.
    pub fn media_type(&self) -> Result<Option<MediaType<'a>>, NoMediaType> {
        let Some(value) = self.get("content-type") else {
            return Ok(None);
        };
        let text = value.iter().all(|byte| byte.is_ascii()).then_some(value);
        match text.and_then(media_type::read) {
            Some(media_type) => Ok(Some(media_type)),
            None => Err(NoMediaType),
        }
    }

    /// Whether the body is coded.
    pub fn has_coding(&self) -> bool {
        self.get("content-encoding")
            .is_some_and(|coding| !trimmed(coding).eq_ignore_ascii_case(b"identity"))
    }

    /// The declared length, `None` in it where the value is no number.
    pub fn length(&self) -> Option<Option<u64>> {
        Some(text::number(self.get("content-length")?, u64::MAX))
    }
}

fn is_named(header: &(&[u8], &[u8]), name: &str) -> bool {
    header.0.eq_ignore_ascii_case(name.as_bytes())
}

/// Whether a header may have this name and this value.
pub fn is_header(name: &[u8], value: &[u8]) -> bool {
    name.len() <= MOST_NAME && is_token(name) && value.iter().all(is_value_byte)
}

/// Whether these bytes are text in a header: printable ASCII and tabs.
pub fn is_header_text(value: &[u8]) -> bool {
    value.iter().all(|byte| matches!(byte, b'\t' | 0x20..=0x7E))
}

fn is_value_byte(byte: &u8) -> bool {
    matches!(byte, b'\t' | 0x20..=0x7E | 0x80..)
}
