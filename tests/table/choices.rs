//! Choices among what a client accepts.
use crate::answers::{Answer, no_such_call, or_none, with_each};
use crate::headers::header_of;
use std::alloc::Global;
use std::fmt::Display;
use web_headers::{Accept, AcceptEncoding, AcceptLanguage, Encoding};
use web_negotiate::prelude::*;
use web_texts::{NoMemory, ReadText};

pub(crate) fn answer(alloc: Global, name: &str, fields: &[&str]) -> Answer {
    match (name, fields) {
        ("Accept", values) => media_types(alloc, values),
        ("Accept-Language", values) => languages(alloc, values),
        ("Accept-Encoding", values) => codings(alloc, values),
        ("coding", [value, made @ ..]) => coding(alloc, value, made),
        _ => no_such_call(alloc),
    }
}

fn media_types(alloc: Global, values: &[&str]) -> Answer {
    match header_of::<Accept>(alloc, values)? {
        Ok(header) => chosen(
            alloc,
            Some(header.preference(alloc)?),
            header.ranked(alloc)?,
        ),
        Err(answer) => Ok(answer),
    }
}

fn languages(alloc: Global, values: &[&str]) -> Answer {
    match header_of::<AcceptLanguage>(alloc, values)? {
        Ok(header) => chosen(
            alloc,
            Some(header.preference(alloc)?),
            header.ranked(alloc)?,
        ),
        Err(answer) => Ok(answer),
    }
}

fn codings(alloc: Global, values: &[&str]) -> Answer {
    match header_of::<AcceptEncoding>(alloc, values)? {
        Ok(header) => chosen(alloc, header.preference(alloc)?, header.ranked(alloc)?),
        Err(answer) => Ok(answer),
    }
}

/// What is preferred, and what is accepted in its order.
fn chosen<T: Display + Drop>(alloc: Global, preferred: Option<T>, ranked: Vec<T>) -> Answer {
    let preferred = or_none(alloc, preferred.as_ref())?;
    let shown = format!(in alloc; "prefers {preferred}, ranks")?;
    with_each(shown, ranked.as_slice())
}

/// The coding to send, of those that are made.
fn coding(alloc: Global, value: &str, made: &[&str]) -> Answer {
    let made = encodings_of(alloc, made)?;
    match header_of::<AcceptEncoding>(alloc, &[value])? {
        Ok(header) => {
            let sent = header.negotiate(alloc, made.as_slice())?;
            or_none(alloc, sent.as_ref())
        }
        Err(answer) => Ok(answer),
    }
}

fn encodings_of(alloc: Global, texts: &[&str]) -> Result<Vec<Encoding>, NoMemory> {
    let mut encodings = Vec::new(alloc);
    for text in texts {
        if let Ok(encoding) = Encoding::parse(alloc, text) {
            encodings.push(encoding)?;
        }
    }
    Ok(encodings)
}
