//! Headers that are made, and not read.
use crate::answers::{Answer, no_number, no_such_call, text};
use crate::headers::printed_header;
use httpdate::HttpDate;
use std::alloc::Global;
use web_entities::{ContentDisposition, ETag, EntityTag, Range};
use web_headers::{Accept, ContentType, Date};
use web_texts::Text;

pub(crate) fn answer(alloc: Global, name: &str, fields: &[&str]) -> Answer {
    match (name, fields) {
        ("Accept::star", []) => printed_header(alloc, Accept::star(alloc)?),
        ("ContentType::form_url_encoded", []) => {
            printed_header(alloc, ContentType::form_url_encoded(alloc)?)
        }
        ("Date::now", [seconds]) => date(alloc, seconds),
        ("ETag::weak", [tag]) => weak_tag(alloc, tag),
        ("ETag::strong", [tag]) => strong_tag(alloc, tag),
        ("ContentDisposition::attachment", [filename]) => {
            printed_header(alloc, ContentDisposition::attachment(alloc, filename)?)
        }
        ("Range::bytes", [first, last]) => range(alloc, first, last),
        ("Range::bytes_multi", [first, last, second, end]) => {
            ranges(alloc, (first, last), (second, end))
        }
        _ => no_such_call(alloc),
    }
}

fn weak_tag(alloc: Global, tag: &str) -> Answer {
    if !EntityTag::is_tag_text(tag) {
        return text(alloc, "no tag");
    }
    printed_header(alloc, ETag(EntityTag::new_weak(Text::of(alloc, tag)?)))
}

fn strong_tag(alloc: Global, tag: &str) -> Answer {
    if !EntityTag::is_tag_text(tag) {
        return text(alloc, "no tag");
    }
    printed_header(alloc, ETag(EntityTag::new_strong(Text::of(alloc, tag)?)))
}

/// The header of a moment, in seconds since 1970.
fn date(alloc: Global, seconds: &str) -> Answer {
    let Ok(seconds) = seconds.parse::<u64>() else {
        return no_number(alloc);
    };
    match HttpDate::from_unix_secs(seconds) {
        Ok(moment) => printed_header(alloc, Date::now(moment)),
        Err(_) => text(alloc, "no date"),
    }
}

fn range(alloc: Global, first: &str, last: &str) -> Answer {
    match pair_of(first, last) {
        Some((first, last)) => printed_header(alloc, Range::bytes(alloc, first, last)?),
        None => no_number(alloc),
    }
}

fn ranges(alloc: Global, first: (&str, &str), second: (&str, &str)) -> Answer {
    match (pair_of(first.0, first.1), pair_of(second.0, second.1)) {
        (Some(first), Some(second)) => {
            let pairs = vec![in alloc; first, second]?;
            printed_header(alloc, Range::bytes_multi(alloc, pairs)?)
        }
        _ => no_number(alloc),
    }
}

fn pair_of(first: &str, last: &str) -> Option<(u64, u64)> {
    Some((first.parse().ok()?, last.parse().ok()?))
}
