//! Content-Disposition.
use crate::map::{Header, Headers};

pub struct ContentDisposition {
    kind: Kind,
    params: Vec<Param>,
}

enum Kind {
    Inline,
    Attachment,
    FormData,
    Other(String),
}

enum Param {
    Name(String),
    Filename(String),
    FilenameExt(Extended),
    Other(String, String),
    OtherExt(String, Extended),
}

/// The value of a parameter whose name ends in an asterisk.
struct Extended {
    /// In upper case.
    charset: String,
    language: Option<String>,
    value: Vec<u8>,
}

impl Kind {
    fn of(name: &str) -> Kind {
        if name.eq_ignore_ascii_case("inline") {
            Kind::Inline
        } else if name.eq_ignore_ascii_case("attachment") {
            Kind::Attachment
        } else if name.eq_ignore_ascii_case("form-data") {
            Kind::FormData
        } else {
            Kind::Other(name.to_owned())
        }
    }

    fn as_str(&self) -> &str {
        match self {
            Kind::Inline => "inline",
            Kind::Attachment => "attachment",
            Kind::FormData => "form-data",
            Kind::Other(name) => name,
        }
    }
}

impl Extended {
    fn read(text: &str) -> Option<Extended> {
        let (charset, rest) = text.split_once('\'')?;
        let (language, value) = rest.split_once('\'')?;
        if !language.is_empty() && !is_language(language) {
            return None;
        }
        Some(Extended {
            charset: charset.to_ascii_uppercase(),
            language: (!language.is_empty()).then(|| language.to_owned()),
            value: decoded(value.as_bytes()),
        })
    }

    fn print(&self, out: &mut String) {
        out.push_str(&self.charset);
        out.push('\'');
        out.push_str(self.language.as_deref().unwrap_or(""));
        out.push('\'');
        for byte in &self.value {
            if is_attr_char(*byte) {
                out.push(char::from(*byte));
            } else {
                out.push('%');
                out.push(char::from(b"0123456789ABCDEF"[usize::from(byte >> 4)]));
                out.push(char::from(b"0123456789ABCDEF"[usize::from(byte & 15)]));
            }
        }
    }
}

/// Subtags of 1 to 8 letters or digits with dashes between them, the first one of letters.
fn is_language(text: &str) -> bool {
    let is_subtag = |subtag: &str| {
        (1..=8).contains(&subtag.len()) && subtag.bytes().all(|byte| byte.is_ascii_alphanumeric())
    };
    let mut subtags = text.split('-');
    let first = subtags.next().unwrap_or("");
    is_subtag(first)
        && first.bytes().all(|byte| byte.is_ascii_alphabetic())
        && subtags.all(is_subtag)
}

/// Decodes percent-encoding. A percent sign without two hexadecimal digits stays.
fn decoded(text: &[u8]) -> Vec<u8> {
    let mut bytes = Vec::with_capacity(text.len());
    let mut rest = text;
    while let [first, behind @ ..] = rest {
        rest = behind;
        let mut byte = *first;
        if let (b'%', [high, low, after @ ..]) = (byte, behind)
            && let (Some(high), Some(low)) = (hex(*high), hex(*low))
        {
            byte = high << 4 | low;
            rest = after;
        }
        bytes.push(byte);
    }
    bytes
}

fn hex(digit: u8) -> Option<u8> {
    match digit {
        b'0'..=b'9' => Some(digit - b'0'),
        b'A'..=b'F' => Some(digit - b'A' + 10),
        b'a'..=b'f' => Some(digit - b'a' + 10),
        _ => None,
    }
}

fn is_attr_char(byte: u8) -> bool {
    byte.is_ascii_alphanumeric()
        || matches!(
            byte,
            b'!' | b'#' | b'$' | b'&' | b'+' | b'-' | b'.' | b'^'..=b'`' | b'|' | b'~'
        )
}

/// What stands before the next semicolon, and what stands after it, if any.
fn cut(text: &str) -> (&str, Option<&str>) {
    match text.split_once(';') {
        Some((before, behind)) => (before, Some(behind)),
        None => (text, None),
    }
}

/// Reads quoted text after its opening quote. Returns it and what stands after the closing one.
fn read_quoted(text: &str) -> Option<(String, &str)> {
    let mut value = String::new();
    let mut rest = text;
    loop {
        let at = rest.bytes().position(|byte| matches!(byte, b'"' | b'\\'))?;
        value.push_str(&rest[..at]);
        let behind = &rest[at + 1..];
        if rest.as_bytes()[at] == b'"' {
            return Some((value, behind));
        }
        let kept = behind.chars().next()?;
        value.push(kept);
        rest = &behind[kept.len_utf8()..];
    }
}

fn read_plain<'a>(name: &str, text: &'a str) -> Option<(Param, Option<&'a str>)> {
    let text = text.trim_ascii_start();
    let (value, behind) = match text.strip_prefix('"') {
        Some(inside) => {
            let (value, behind) = read_quoted(inside)?;
            (value, cut(behind).1)
        }
        None => {
            let (value, behind) = cut(text);
            let value = value.trim_ascii_end();
            if value.is_empty() {
                return None;
            }
            (value.to_owned(), behind)
        }
    };
    let param = if name.eq_ignore_ascii_case("name") {
        Param::Name(value)
    } else if name.eq_ignore_ascii_case("filename") {
        Param::Filename(value)
    } else {
        Param::Other(name.to_owned(), value)
    };
    Some((param, behind))
}

fn read_extended<'a>(name: &str, text: &'a str) -> Option<(Param, Option<&'a str>)> {
    let (value, behind) = cut(text);
    let value = Extended::read(value.trim_ascii())?;
    let param = if name.eq_ignore_ascii_case("filename") {
        Param::FilenameExt(value)
    } else {
        Param::OtherExt(name.to_owned(), value)
    };
    Some((param, behind))
}

fn read_params(text: &str) -> Option<Vec<Param>> {
    let mut params = Vec::new();
    let mut rest = text;
    loop {
        let Some((name, text)) = rest.split_once('=') else {
            return rest.trim_ascii().is_empty().then_some(params);
        };
        let name = name.trim_ascii();
        let (param, behind) = match name.strip_suffix('*') {
            _ if name.is_empty() => return None,
            Some("") => return None,
            Some(name) => read_extended(name, text)?,
            None => read_plain(name, text)?,
        };
        params.push(param);
        match behind {
            Some(behind) => rest = behind,
            None => return Some(params),
        }
    }
}

fn push_quoted(out: &mut String, name: &str, value: &str) {
    out.push_str("; ");
    out.push_str(name);
    out.push_str("=\"");
    let mut rest = value;
    while let Some(at) = rest.bytes().position(needs_backslash) {
        out.push_str(&rest[..at]);
        out.push('\\');
        out.push_str(&rest[at..at + 1]);
        rest = &rest[at + 1..];
    }
    out.push_str(rest);
    out.push('"');
}

fn needs_backslash(byte: u8) -> bool {
    matches!(byte, 0..=8 | 16..=31 | 127 | b'"' | b'\\')
}

impl Param {
    fn print(&self, out: &mut String) {
        match self {
            Param::Name(value) => {
                out.push_str("; name=");
                out.push_str(value);
            }
            Param::Filename(value) => push_quoted(out, "filename", value),
            Param::Other(name, value) => push_quoted(out, name, value),
            Param::FilenameExt(value) => {
                out.push_str("; filename*=");
                value.print(out);
            }
            Param::OtherExt(name, value) => {
                out.push_str("; ");
                out.push_str(name);
                out.push_str("*=");
                value.print(out);
            }
        }
    }
}

impl Header for ContentDisposition {
    fn read(headers: &Headers) -> Option<Self> {
        let text = str::from_utf8(headers.get("content-disposition")?)
            .ok()?
            .trim_ascii();
        let (name, params) = cut(text);
        let name = name.trim_ascii();
        if name.is_empty() {
            return None;
        }
        Some(ContentDisposition {
            kind: Kind::of(name),
            params: read_params(params.unwrap_or(""))?,
        })
    }

    fn print(&self, out: &mut String) {
        out.push_str(self.kind.as_str());
        for param in &self.params {
            param.print(out);
        }
    }
}
