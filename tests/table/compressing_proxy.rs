//! The coding that the proxy of `example_handlers` chooses.
use crate::answers::{Answer, no_such_call, or_none, refused, text};
use crate::maps::map_of;
use example_handlers::coding_to_send;
use std::alloc::Global;
use web_headers::{AcceptEncoding, Header};

/// The fields of a row are the values of Accept-Encoding.
pub(crate) fn answer(alloc: Global, name: &str, values: &[&str]) -> Answer {
    if name != "coding" {
        return no_such_call(alloc);
    }
    match map_of(alloc, &AcceptEncoding::name(), values)? {
        Some(asked) => match coding_to_send(alloc, &asked) {
            Ok(coding) => or_none(alloc, coding.as_ref()),
            Err(error) => refused(alloc, error),
        },
        None => text(alloc, "no value of a header"),
    }
}
