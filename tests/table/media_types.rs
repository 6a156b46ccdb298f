//! Media types, and texts of errors.
use crate::answers::{Answer, displayed, no_such_call, printed, shown, text};
use std::alloc::Global;
use web_texts::{
    ContentTypeError, Fail, InvalidHeaderValue, Mime, MimeFault, NoMemory, ParseError, push_items,
};

pub(crate) fn answer(alloc: Global, name: &str, fields: &[&str]) -> Answer {
    match (name, fields) {
        ("parse", [field]) => parsed(alloc, field),
        ("param", [field, parameter]) => parameters(alloc, field, parameter),
        ("eq", [left, right]) => compared(alloc, left, right),
        ("is_written", [field, other]) => written(alloc, field, other),
        ("push_items", [field]) => count_of_items(alloc, field),
        _ => no_such_call(alloc),
    }
}

pub(crate) fn error(alloc: Global, name: &str) -> Answer {
    match name {
        "ContentTypeError::ParseError" => displayed(alloc, ContentTypeError::ParseError),
        "ContentTypeError::UnknownEncoding" => displayed(alloc, ContentTypeError::UnknownEncoding),
        "ParseError::Header" => displayed(alloc, ParseError::Header),
        "InvalidHeaderValue" => displayed(alloc, InvalidHeaderValue),
        _ => no_such_call(alloc),
    }
}

fn parsed(alloc: Global, field: &str) -> Answer {
    match Mime::parse(alloc, field) {
        Ok(mime) => parts(alloc, &mime),
        Err(Fail::NoMemory) => Err(NoMemory),
        Err(Fail::Of(MimeFault)) => text(alloc, "refused"),
    }
}

/// The type, the subtype, the suffix and the printed text.
fn parts(alloc: Global, mime: &Mime) -> Answer {
    let printed = printed(alloc, mime)?;
    let (type_, subtype) = (mime.type_(), mime.subtype());
    let suffix = mime.suffix().unwrap_or("no suffix");
    Ok(format!(in alloc; "{type_}, {subtype}, {suffix}, [{printed}]")?)
}

/// The value of the first parameter of a name, and that of the first charset.
fn parameters(alloc: Global, field: &str, name: &str) -> Answer {
    match Mime::parse(alloc, field) {
        Ok(mime) => shown(alloc, (mime.param(name), mime.charset())),
        Err(_) => text(alloc, "no media type"),
    }
}

fn compared(alloc: Global, left: &str, right: &str) -> Answer {
    match (Mime::parse(alloc, left), Mime::parse(alloc, right)) {
        (Ok(left), Ok(right)) => text(alloc, if left == right { "equal" } else { "different" }),
        _ => text(alloc, "no media types"),
    }
}

/// Whether the other text is the media type in its plainest spelling.
fn written(alloc: Global, field: &str, other: &str) -> Answer {
    match Mime::parse(alloc, field) {
        Ok(mime) => text(
            alloc,
            if mime.is_written(other) {
                "written so"
            } else {
                "otherwise"
            },
        ),
        Err(_) => text(alloc, "no media type"),
    }
}

fn count_of_items(alloc: Global, field: &str) -> Answer {
    let mut mimes: Vec<Mime> = Vec::new(alloc);
    push_items(alloc, &mut mimes, field)?;
    shown(alloc, mimes.len())
}
