//! What a Content-Disposition says.
use crate::answers::{Answer, no_such_call, or_none, shown};
use crate::headers::header_of;
use std::alloc::Global;
use web_entities::ContentDisposition;

pub(crate) fn answer(alloc: Global, name: &str, fields: &[&str]) -> Answer {
    match fields {
        [value, parameter] => match header_of::<ContentDisposition>(alloc, &[value])? {
            Ok(header) => said(alloc, name, &header, parameter),
            Err(answer) => Ok(answer),
        },
        _ => no_such_call(alloc),
    }
}

fn said(alloc: Global, name: &str, header: &ContentDisposition, parameter: &str) -> Answer {
    match name {
        "texts" => texts(alloc, header, parameter),
        "filename_ext" => or_none(alloc, header.get_filename_ext()),
        "unknown_ext" => or_none(alloc, header.get_unknown_ext(parameter)),
        "kinds" => kinds(alloc, header, parameter),
        _ => no_such_call(alloc),
    }
}

/// The first `name`, the first `filename`, and the first parameter of this name.
fn texts(alloc: Global, header: &ContentDisposition, name: &str) -> Answer {
    let known = (header.get_name(), header.get_filename());
    shown(alloc, (known, header.get_unknown(name)))
}

/// Whether the type is inline, an attachment, a field of a form, or another one of this name.
fn kinds(alloc: Global, header: &ContentDisposition, name: &str) -> Answer {
    let shown_in_place = (header.is_inline(), header.is_attachment());
    shown(
        alloc,
        (shown_in_place, (header.is_form_data(), header.is_ext(name))),
    )
}
