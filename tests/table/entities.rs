//! Headers that speak of a representation, tags, and positions of byte ranges.
use crate::answers::{Answer, no_number, no_such_call, shown, text};
use crate::headers::read;
use std::alloc::Global;
use web_entities::{
    ByteRangeSpec, ContentDisposition, ContentRange, ETag, EntityTag, IfMatch, IfNoneMatch,
    IfRange, Range,
};
use web_negotiate::prelude::*;
use web_texts::ReadText;

pub(crate) fn header_answer(alloc: Global, name: &str, values: &[&str]) -> Answer {
    match name {
        "Content-Disposition" => read::<ContentDisposition>(alloc, values),
        "Content-Range" => read::<ContentRange>(alloc, values),
        "ETag" => read::<ETag>(alloc, values),
        "If-Match" => read::<IfMatch>(alloc, values),
        "If-None-Match" => read::<IfNoneMatch>(alloc, values),
        "If-Range" => read::<IfRange>(alloc, values),
        "Range" => read::<Range>(alloc, values),
        _ => no_such_call(alloc),
    }
}

pub(crate) fn answer(alloc: Global, name: &str, fields: &[&str]) -> Answer {
    match (name, fields) {
        ("eq", [left, right]) => compared(alloc, left, right),
        ("is_tag_text", [field]) => shown(alloc, EntityTag::is_tag_text(field)),
        ("positions", [range, length]) => positions(alloc, range, length),
        _ => no_such_call(alloc),
    }
}

/// Whether two tags are equal, strongly and weakly, and whether they are not.
fn compared(alloc: Global, left: &str, right: &str) -> Answer {
    match (
        EntityTag::parse(alloc, left),
        EntityTag::parse(alloc, right),
    ) {
        (Ok(left), Ok(right)) => {
            let equal = (left.strong_eq(&right), left.weak_eq(&right));
            let unequal = (left.strong_ne(&right), left.weak_ne(&right));
            shown(alloc, (equal, unequal))
        }
        _ => text(alloc, "no tags"),
    }
}

/// The positions that a range selects of so many bytes.
fn positions(alloc: Global, range: &str, length: &str) -> Answer {
    match (range_of(range), length.parse::<u64>()) {
        (Some(range), Ok(length)) => shown(alloc, range.to_satisfiable_range(length)),
        _ => no_number(alloc),
    }
}

/// The range that a row names, whose first position may lie after its last one.
fn range_of(text: &str) -> Option<ByteRangeSpec> {
    match text.split_once('-')? {
        ("", last) => Some(ByteRangeSpec::Last(last.parse().ok()?)),
        (first, "") => Some(ByteRangeSpec::From(first.parse().ok()?)),
        (first, last) => Some(ByteRangeSpec::FromTo(first.parse().ok()?, last.parse().ok()?)),
    }
}
