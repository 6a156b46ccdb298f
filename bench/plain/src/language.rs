//! Language tags.

/// Subtags of 1 to 8 letters or digits with dashes between them, the first one of letters.
pub fn is_language(text: &[u8]) -> bool {
    let mut subtags = text.split(|byte| *byte == b'-');
    let has_length = |subtag: &[u8]| (1..=8).contains(&subtag.len());
    let first = subtags.next().unwrap_or_default();
    has_length(first)
        && first.iter().all(u8::is_ascii_alphabetic)
        && subtags.all(|subtag| has_length(subtag) && subtag.iter().all(u8::is_ascii_alphanumeric))
}

/// Whether a language, or those that it begins, has this tag.
pub fn has(language: &[u8], tag: &[u8]) -> bool {
    match tag.split_at_checked(language.len()) {
        Some((front, rest)) => {
            front.eq_ignore_ascii_case(language) && matches!(rest, [] | [b'-', ..])
        }
        None => false,
    }
}
