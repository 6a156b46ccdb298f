//! Content-Disposition of the parts of a form.
use crate::language::is_language;
use std::borrow::Cow;

/// What a part of a form is called.
pub struct FormData<'a> {
    pub name: Cow<'a, str>,
    pub filename: Option<Cow<'a, str>>,
}

const BLANKS: [char; 2] = [' ', '\t'];

/// Reads a value without blanks at its ends, or answers `None` where it is none of a form's part with a name.
pub fn read(value: &[u8]) -> Option<FormData<'_>> {
    let (kind, mut behind) = cut(std::str::from_utf8(value).ok()?);
    if !kind.eq_ignore_ascii_case("form-data") {
        return None;
    }
    let (mut name, mut filename) = (None, None);
    while let Some(text) = behind.map(|text| text.trim_start_matches(BLANKS)) {
        if text.is_empty() {
            break;
        }
        let (param, text) = text.split_once('=')?;
        let (param, text) = (
            param.trim_end_matches(BLANKS),
            text.trim_start_matches(BLANKS),
        );
        if let Some(param) = param.strip_suffix('*') {
            behind = skip_extended(param, text)?;
            continue;
        }
        let (value, rest) = read_value(text)?;
        behind = rest;
        if param.is_empty() {
            return None;
        } else if param.eq_ignore_ascii_case("name") {
            name.get_or_insert(value);
        } else if param.eq_ignore_ascii_case("filename") {
            filename.get_or_insert(value);
        }
    }
    Some(FormData {
        name: name?,
        filename,
    })
}

/// A value, and what stands after the next semicolon, if any.
fn read_value(text: &str) -> Option<(Cow<'_, str>, Option<&str>)> {
    if let Some(inside) = text.strip_prefix('"') {
        let (value, rest) = read_quoted(inside)?;
        return Some((value, cut(rest).1));
    }
    let (value, behind) = cut(text);
    (!value.is_empty()).then_some((value.into(), behind))
}

/// Quoted text after its opening quote, and what stands after the closing one. A backslash keeps what follows.
fn read_quoted(text: &str) -> Option<(Cow<'_, str>, &str)> {
    let mut value = Cow::Borrowed("");
    let mut rest = text;
    loop {
        let at = rest.find(['"', '\\'])?;
        value += &rest[..at];
        let behind = &rest[at + 1..];
        if rest.as_bytes()[at] == b'"' {
            return Some((value, behind));
        }
        let kept = behind.chars().next()?;
        value.to_mut().push(kept);
        rest = &behind[kept.len_utf8()..];
    }
}

/// Tests a value with its charset and its language. Returns what stands after the next semicolon, if any.
fn skip_extended<'a>(param: &str, text: &'a str) -> Option<Option<&'a str>> {
    let (value, behind) = cut(text);
    let (_charset, rest) = value.split_once('\'')?;
    let (language, _text) = rest.split_once('\'')?;
    let is_extended = language.is_empty() || is_language(language.as_bytes());
    (is_extended && !param.is_empty()).then_some(behind)
}

/// What stands before the next semicolon, without blanks at its end, and what stands after it, if any.
fn cut(text: &str) -> (&str, Option<&str>) {
    match text.split_once(';') {
        Some((before, behind)) => (before.trim_end_matches(BLANKS), Some(behind)),
        None => (text.trim_end_matches(BLANKS), None),
    }
}
