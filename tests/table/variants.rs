//! The choice among variants and its reply: first the fields of the variants, `MEDIA TYPE,
//! LANGUAGE, CODING, BODY`, where `-` is no language, then the header fields, `NAME: VALUE`. For a
//! page the place of its fallback stands before them, or `-`.
use crate::answers::{Answer, no_such_call, shown, text};
use crate::documents;
use crate::maps::{BETWEEN, headers_of};
use http_header::{HeaderMap, HeaderValue};
use std::alloc::Global;
use web_body::Marks;
use web_headers::Encoding;
use web_request::{HttpRequest, PlainApp};
use web_texts::{Fail, LanguageTag, Mime, NoMemory, ReadText};
use web_variants::{NoSuchVariant, Page, Variant, Variants, answer_page, answer_variant, choose};

/// What stands between the parts of a variant.
const THEN: &str = ", ";

/// What replies to a request.
#[derive(Clone, Copy)]
enum Asked<'a> {
    Variants(&'a Variants),
    Page(&'a Page),
}

pub(crate) fn answer(alloc: Global, name: &str, fields: &[&str]) -> Answer {
    match (name, fields) {
        ("page", [place, fields @ ..]) => page(alloc, place, fields),
        _ => answer_of(alloc, name, fields),
    }
}

fn answer_of(alloc: Global, name: &str, fields: &[&str]) -> Answer {
    match stored(alloc, fields)? {
        Ok(variants) => answer_from(alloc, name, &variants, fields),
        Err(answer) => Ok(answer),
    }
}

fn page(alloc: Global, place: &str, fields: &[&str]) -> Answer {
    match stored(alloc, fields)? {
        Ok(variants) => match page_of(variants, place) {
            Ok(page) => page_answer(alloc, &page, fields),
            Err(fault) => shown(alloc, fault),
        },
        Err(answer) => Ok(answer),
    }
}

/// The page with the fallback at this place, or with none where the text is no number.
fn page_of(variants: Variants, place: &str) -> Result<Page, NoSuchVariant> {
    match place.parse() {
        Ok(place) => Page::with_fallback(variants, place),
        Err(_) => Ok(Page::new(variants)),
    }
}

fn page_answer(alloc: Global, page: &Page, fields: &[&str]) -> Answer {
    let fields = fields_of_headers(alloc, fields)?;
    match headers_of(alloc, fields.as_slice())? {
        Some(headers) => reply(alloc, Asked::Page(page), headers),
        None => text(alloc, "no header fields"),
    }
}

fn answer_from(alloc: Global, name: &str, variants: &Variants, fields: &[&str]) -> Answer {
    let fields = fields_of_headers(alloc, fields)?;
    match headers_of(alloc, fields.as_slice())? {
        Some(headers) => match name {
            "choose" => chosen(alloc, variants, &headers),
            "reply" => reply(alloc, Asked::Variants(variants), headers),
            _ => no_such_call(alloc),
        },
        None => text(alloc, "no header fields"),
    }
}

fn fields_of_headers<'a>(alloc: Global, fields: &[&'a str]) -> Result<Vec<&'a str>, NoMemory> {
    let mut found = Vec::new(alloc);
    for field in fields {
        if field.contains(BETWEEN) {
            found.push(*field)?;
        }
    }
    Ok(found)
}

/// The place of the variant that is chosen.
fn chosen(alloc: Global, variants: &Variants, headers: &HeaderMap<HeaderValue>) -> Answer {
    match choose(alloc, variants, headers)? {
        Some(place) => shown(alloc, place),
        None => text(alloc, "none"),
    }
}

fn reply(alloc: Global, asked: Asked<'_>, headers: HeaderMap<HeaderValue>) -> Answer {
    match documents::head_of(alloc, "GET /", headers) {
        Some(head) => {
            let mut pool = documents::pool::<Marks>(alloc)?;
            let req = documents::started(alloc, &mut pool, head)?;
            reply_to(alloc, asked, &req)
        }
        None => text(alloc, "no request"),
    }
}

fn reply_to(alloc: Global, asked: Asked<'_>, req: &HttpRequest<PlainApp<Marks>>) -> Answer {
    let reply = match asked {
        Asked::Variants(variants) => answer_variant(alloc, variants, req)?,
        Asked::Page(page) => answer_page(alloc, page, req)?,
    };
    documents::shown(alloc, &reply)
}

/// The variants of a row, or the answer where they are refused.
fn stored(alloc: Global, fields: &[&str]) -> Result<Result<Variants, String>, NoMemory> {
    match variants_of(alloc, fields)? {
        Some(variants) => match Variants::new(alloc, variants) {
            Ok(variants) => Ok(Ok(variants)),
            Err(Fail::NoMemory) => Err(NoMemory),
            Err(Fail::Of(fault)) => Ok(Err(shown(alloc, fault)?)),
        },
        None => Ok(Err(text(alloc, "no variant")?)),
    }
}

fn variants_of(alloc: Global, fields: &[&str]) -> Result<Option<Vec<Variant>>, NoMemory> {
    let mut variants = Vec::new(alloc);
    for field in fields {
        if !field.contains(BETWEEN) {
            match variant_of(alloc, field) {
                Some(variant) => variants.push(variant)?,
                None => return Ok(None),
            }
        }
    }
    Ok(Some(variants))
}

fn variant_of(alloc: Global, field: &str) -> Option<Variant> {
    let (field, body) = field.rsplit_once(THEN)?;
    let (field, coding) = field.rsplit_once(THEN)?;
    let (media_type, language) = field.rsplit_once(THEN)?;
    let media_type = Mime::parse(alloc, media_type).ok()?;
    let language = language_of(alloc, language)?;
    variant_with(alloc, media_type, language, (coding, body))
}

fn variant_with(
    alloc: Global,
    media_type: Mime,
    language: Option<LanguageTag>,
    content: (&str, &str),
) -> Option<Variant> {
    let (coding, body) = content;
    Some(Variant {
        media_type,
        language,
        coding: Encoding::parse(alloc, coding).ok()?,
        body: documents::body_of(alloc, body)?,
    })
}

fn language_of(alloc: Global, language: &str) -> Option<Option<LanguageTag>> {
    if language == "-" {
        return Some(None);
    }
    Some(Some(LanguageTag::parse(alloc, language).ok()?))
}
