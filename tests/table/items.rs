//! Items of lists, and extended values.
use crate::answers::{Answer, in_brackets, no_such_call, printed, read_text, refused};
use std::alloc::Global;
use std::fmt::Write;
use web_entities::{ByteRangeSpec, EntityTag};
use web_headers::{CacheDirective, Encoding, Preference};
use web_texts::{
    Charset, ExtendedValue, LanguageTag, Mime, NoMemory, QualityItem, parse_extended_value,
};

pub(crate) fn answer(alloc: Global, name: &str, fields: &[&str]) -> Answer {
    match (name, fields) {
        ("ByteRangeSpec", [field]) => read_text::<ByteRangeSpec>(alloc, field),
        ("CacheDirective", [field]) => read_text::<CacheDirective>(alloc, field),
        ("Charset", [field]) => read_text::<Charset>(alloc, field),
        ("Encoding", [field]) => read_text::<Encoding>(alloc, field),
        ("EntityTag", [field]) => read_text::<EntityTag>(alloc, field),
        ("ExtendedValue", [field]) => extended(alloc, field),
        ("LanguageTag", [field]) => read_text::<LanguageTag>(alloc, field),
        ("Mime", [field]) => read_text::<Mime>(alloc, field),
        ("QualityItem", [field]) => read_text::<QualityItem<Preference<Encoding>>>(alloc, field),
        _ => no_such_call(alloc),
    }
}

fn extended(alloc: Global, field: &str) -> Answer {
    match parse_extended_value(alloc, field) {
        Ok(value) => extended_shown(alloc, &value),
        Err(error) => refused(alloc, error),
    }
}

/// The printed text, and the bytes in hexadecimal digits.
fn extended_shown(alloc: Global, value: &ExtendedValue) -> Answer {
    let printed = printed(alloc, value)?;
    let mut shown = in_brackets(alloc, printed.as_str())?;
    push_digits(&mut shown, value.value.as_slice())?;
    Ok(shown)
}

fn push_digits(shown: &mut String, bytes: &[u8]) -> Result<(), NoMemory> {
    for byte in bytes {
        if write!(shown, " {byte:02x}").is_err() {
            return Err(NoMemory);
        }
    }
    Ok(())
}
