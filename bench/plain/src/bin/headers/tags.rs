//! Entity tags and If-None-Match.
use crate::map::{Header, Headers};

pub enum IfNoneMatch {
    Any,
    Tags(Vec<Tag>),
}

pub struct Tag {
    weak: bool,
    tag: String,
}

impl Tag {
    fn read(text: &str) -> Option<Tag> {
        let (weak, quoted) = match text.strip_prefix("W/") {
            Some(quoted) => (true, quoted),
            None => (false, text),
        };
        let tag = quoted.strip_prefix('"')?.strip_suffix('"')?;
        let is_tag = tag
            .bytes()
            .all(|byte| byte == 0x21 || byte >= 0x23 && byte != 0x7F);
        is_tag.then(|| Tag {
            weak,
            tag: tag.to_owned(),
        })
    }

    fn print(&self, out: &mut String) {
        out.push_str(if self.weak { "W/\"" } else { "\"" });
        out.push_str(&self.tag);
        out.push('"');
    }
}

/// The pieces of a text between commas before which the number of double quotes is even.
struct Pieces<'a>(Option<&'a str>);

impl<'a> Iterator for Pieces<'a> {
    type Item = &'a str;

    fn next(&mut self) -> Option<&'a str> {
        let text = self.0?;
        let mut quoted = false;
        for (at, byte) in text.bytes().enumerate() {
            match byte {
                b'"' => quoted = !quoted,
                b',' if !quoted => {
                    self.0 = Some(&text[at + 1..]);
                    return Some(&text[..at]);
                }
                _ => {}
            }
        }
        self.0 = None;
        Some(text)
    }
}

impl Header for IfNoneMatch {
    fn read(headers: &Headers) -> Option<Self> {
        let first = headers.first_text("if-none-match");
        if first.is_some_and(|text| text.trim_ascii() == "*") {
            return Some(IfNoneMatch::Any);
        }
        let cut = |text| Pieces(Some(text));
        headers
            .read_list("if-none-match", cut, Tag::read)
            .map(IfNoneMatch::Tags)
    }

    fn print(&self, out: &mut String) {
        match self {
            IfNoneMatch::Any => out.push('*'),
            IfNoneMatch::Tags(tags) => {
                for (at, tag) in tags.iter().enumerate() {
                    if at > 0 {
                        out.push_str(", ");
                    }
                    tag.print(out);
                }
            }
        }
    }
}
