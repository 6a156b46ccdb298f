//! The parts of a form, one by one.
use crate::answers::{Answer, no_number, no_such_call, text};
use crate::documents::{head_of, pool, started};
use crate::maps::map_of;
use crate::row_body::{RowBody, body_of};
use http_header::CONTENT_TYPE;
use std::alloc::Global;
use std::fmt::Write;
use web_body::{Payload, Step};
use web_multipart_stream::{MultipartError, MultipartStream, Part};
use web_request::{HttpRequest, PlainApp};
use web_texts::NoMemory;

/// The fields of a row: the Content-Type of a form, the limit of its parts, and its body.
pub(crate) fn answer(alloc: Global, name: &str, fields: &[&str]) -> Answer {
    let ("read", [content_type, limit, body]) = (name, fields) else {
        return no_such_call(alloc);
    };
    let Ok(limit) = limit.parse::<u32>() else {
        return no_number(alloc);
    };
    match map_of(alloc, &CONTENT_TYPE, &[*content_type])? {
        Some(headers) => match head_of(alloc, "POST /", headers) {
            Some(head) => {
                let mut pool = pool::<RowBody>(alloc)?;
                read(alloc, &started(alloc, &mut pool, head)?, limit, body)
            }
            None => text(alloc, "no request"),
        },
        None => text(alloc, "no header field"),
    }
}

fn read(alloc: Global, request: &HttpRequest<PlainApp<RowBody>>, limit: u32, body: &str) -> Answer {
    let mut payload = Payload::Stream(body_of(alloc, body)?);
    let mut stream = MultipartStream::new(alloc, request, &mut payload, limit as usize)?;
    read_to_end(alloc, &mut stream, body.len().saturating_add(66))
}

/// What each answer of a stream is, after the number of polls that waited before it.
fn read_to_end(alloc: Global, stream: &mut MultipartStream<RowBody>, polls: usize) -> Answer {
    let mut shown = String::new(alloc);
    let mut waited = 0u32;
    for _ in 0..polls {
        match stream.poll_next(alloc) {
            Step::Pending => waited = waited.saturating_add(1),
            Step::Ready(Some(Ok(part))) => add_part(&mut shown, waited, &part)?,
            Step::Ready(Some(Err(error))) => return with_error(shown, waited, error),
            Step::Ready(None) => return with_end(shown, waited),
            Step::NoMemory => return Err(NoMemory),
        }
    }
    text(alloc, "no end")
}

fn with_error(shown: String, waited: u32, error: MultipartError) -> Answer {
    let mut shown = shown;
    let status = error.status_code().as_u16();
    match write!(shown, "{waited} {status} {error}") {
        Ok(()) => Ok(shown),
        Err(_) => Err(NoMemory),
    }
}

fn with_end(shown: String, waited: u32) -> Answer {
    let mut shown = shown;
    match write!(shown, "{waited} end") {
        Ok(()) => Ok(shown),
        Err(_) => Err(NoMemory),
    }
}

/// Adds the name of a part, that of its file, its media type, and its content.
fn add_part(shown: &mut String, waited: u32, part: &Part) -> Result<(), NoMemory> {
    if write!(shown, "{waited} ").is_err() {
        return Err(NoMemory);
    }
    add_bytes(shown, part.name.as_str().as_bytes())?;
    if let Some(filename) = &part.filename {
        shown.push_str(" file ")?;
        add_bytes(shown, filename.as_str().as_bytes())?;
    }
    if let Some(media_type) = &part.media_type {
        if write!(shown, " type [{media_type}]").is_err() {
            return Err(NoMemory);
        }
    }
    shown.push(' ')?;
    add_bytes(shown, part.body.as_slice())?;
    shown.push_str("; ")?;
    Ok(())
}

/// Adds bytes in brackets, each as the character of its number.
pub(crate) fn add_bytes(shown: &mut String, bytes: &[u8]) -> Result<(), NoMemory> {
    shown.push('[')?;
    for byte in bytes {
        shown.push(char::from(*byte))?;
    }
    shown.push(']')?;
    Ok(())
}
