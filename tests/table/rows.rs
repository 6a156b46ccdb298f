//! Rows: a call, what it is called with, and what it has to give.
use crate::answers::{Answer, text};
use crate::{
    choices, compressing_proxy, cookies, dispositions, documents, entities, file_service, headers,
    items, languages, made_headers, media_types, messages, origins, parts, paths, texts, variants,
};
use std::alloc::Global;
use web_texts::NoMemory;

/// What stands between the fields of a row.
const BETWEEN: &str = " | ";

/// Whether a line is a row.
pub(crate) fn is_row(line: &str) -> bool {
    !line.is_empty() && !line.starts_with('#')
}

/// What a row's call gives, where that is not what the row wants.
pub(crate) fn difference(alloc: Global, line: &str) -> Result<Option<String>, NoMemory> {
    let line = with_controls(alloc, line)?;
    match line.as_str().rsplit_once(BETWEEN) {
        Some((call, wanted)) => unless_wanted(answer(alloc, call)?, wanted),
        None => Ok(Some(text(alloc, "no row")?)),
    }
}

/// The line with the control characters that its pictures stand for.
fn with_controls(alloc: Global, line: &str) -> Answer {
    let mut found = String::new(alloc);
    for char in line.chars() {
        found.push(control_of(char))?;
    }
    Ok(found)
}

fn control_of(char: char) -> char {
    match char {
        '␀' => '\0',
        '␉' => '\t',
        '␊' => '\n',
        '␍' => '\r',
        '␡' => '\u{7f}',
        other => other,
    }
}

fn unless_wanted(found: String, wanted: &str) -> Result<Option<String>, NoMemory> {
    if found.as_str() == wanted {
        return Ok(None);
    }
    Ok(Some(found))
}

/// What the call of a row gives.
fn answer(alloc: Global, row: &str) -> Answer {
    match row.split_once(BETWEEN) {
        Some((call, fields)) => {
            let fields: Vec<&str> = fields.split(BETWEEN).collect(alloc)?;
            answer_in_group(alloc, call, fields.as_slice())
        }
        None => answer_in_group(alloc, row, &[]),
    }
}

/// What a call, `GROUP NAME`, gives.
fn answer_in_group(alloc: Global, call: &str, fields: &[&str]) -> Answer {
    let (group, name) = call.split_once(' ').unwrap_or((call, ""));
    match group {
        "header" => headers::answer(alloc, name, fields),
        "entity" => entities::answer(alloc, name, fields),
        "made" => made_headers::answer(alloc, name, fields),
        "item" => items::answer(alloc, name, fields),
        "mime" => media_types::answer(alloc, name, fields),
        "text" => texts::answer(alloc, name, fields),
        _ => answer_in_small_group(alloc, group, name, fields),
    }
}

fn answer_in_small_group(alloc: Global, group: &str, name: &str, fields: &[&str]) -> Answer {
    match group {
        "error" => media_types::error(alloc, name),
        "language" => languages::answer(alloc, name, fields),
        "disposition" => dispositions::answer(alloc, name, fields),
        "choice" => choices::answer(alloc, name, fields),
        "document" => documents::answer(alloc, name, fields),
        "variant" => variants::answer(alloc, name, fields),
        "cookie" => cookies::answer(alloc, name, fields),
        "parts" => parts::answer(alloc, name, fields),
        "message" => messages::answer(alloc, name, fields),
        "origin" => origins::answer(alloc, name, fields),
        "path" => paths::answer(alloc, name, fields),
        "service" => file_service::answer(alloc, name, fields),
        "proxy" => compressing_proxy::answer(alloc, name, fields),
        _ => text(alloc, "no such group of calls"),
    }
}
