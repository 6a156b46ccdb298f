//! Language tags.
use crate::answers::{Answer, no_such_call, text};
use std::alloc::Global;
use web_texts::{Fail, LanguageTag, NoMemory, TagFault};

pub(crate) fn answer(alloc: Global, name: &str, fields: &[&str]) -> Answer {
    match (name, fields) {
        ("parse", [field]) => text(alloc, kind_of(alloc, field)?),
        ("eq", [left, right]) => compared(alloc, left, right),
        _ => no_such_call(alloc),
    }
}

fn kind_of(alloc: Global, field: &str) -> Result<&'static str, NoMemory> {
    match LanguageTag::parse(alloc, field) {
        Ok(_) => Ok("a tag"),
        Err(Fail::NoMemory) => Err(NoMemory),
        Err(Fail::Of(TagFault)) => Ok("refused"),
    }
}

fn compared(alloc: Global, left: &str, right: &str) -> Answer {
    match (
        LanguageTag::parse(alloc, left),
        LanguageTag::parse(alloc, right),
    ) {
        (Ok(left), Ok(right)) => text(alloc, if left == right { "equal" } else { "different" }),
        _ => text(alloc, "no tags"),
    }
}
