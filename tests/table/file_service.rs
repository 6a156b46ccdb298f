//! What the file service of `example_handlers` sends.
use crate::answers::{Answer, no_number, no_such_call, text};
use crate::maps::map_of;
use example_handlers::{Sent, part_to_send};
use std::alloc::Global;
use web_entities::Range;
use web_headers::Header;

/// The fields of a row are a value of Range and the length of the file.
pub(crate) fn answer(alloc: Global, name: &str, fields: &[&str]) -> Answer {
    match (name, fields) {
        ("part", [value, length]) => match length.parse::<u64>() {
            Ok(length) => part(alloc, value, length),
            Err(_) => no_number(alloc),
        },
        _ => no_such_call(alloc),
    }
}

fn part(alloc: Global, value: &str, length: u64) -> Answer {
    match map_of(alloc, &Range::name(), &[value])? {
        Some(headers) => said(alloc, part_to_send(alloc, &headers, length)?),
        None => text(alloc, "no value of a header"),
    }
}

fn said(alloc: Global, sent: Sent) -> Answer {
    match sent {
        Sent::Whole => text(alloc, "whole"),
        Sent::Part(first, last, range) => Ok(format!(in alloc; "{first} to {last}, [{range}]")?),
        Sent::Nothing(range) => Ok(format!(in alloc; "nothing, [{range}]")?),
    }
}
