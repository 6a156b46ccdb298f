//! Paths below a root.
use crate::answers::{Answer, no_such_call, text};
use http_uri::{Uri, UriError};
use std::alloc::Global;
use web_paths::{Below, HiddenNames};
use web_texts::NoMemory;

pub(crate) fn answer(alloc: Global, name: &str, fields: &[&str]) -> Answer {
    match (name, fields) {
        ("without_hidden", [target]) => of_target(alloc, target, HiddenNames::Refused),
        ("with_hidden", [target]) => of_target(alloc, target, HiddenNames::Allowed),
        ("behind", [path]) => {
            let below = Below::of_path(alloc, path, HiddenNames::Refused)?;
            shown(alloc, below.as_ref())
        }
        ("in_folder", [root, target]) => in_folder(alloc, root, target),
        _ => no_such_call(alloc),
    }
}

fn of_target(alloc: Global, target: &str, hidden: HiddenNames) -> Answer {
    match Uri::from_bytes(alloc, target.as_bytes()) {
        Ok(target) => {
            let below = Below::of_target(alloc, &target, hidden)?;
            shown(alloc, below.as_ref())
        }
        Err(UriError::OutOfMemory) => Err(NoMemory),
        Err(_) => text(alloc, "no target"),
    }
}

/// The names in brackets, and whether a slash ended the target's path.
fn shown(alloc: Global, below: Option<&Below>) -> Answer {
    let Some(below) = below else {
        return text(alloc, "none");
    };
    let names = below.as_str();
    if below.ends_in_slash() {
        Ok(format!(in alloc; "[{names}], slash")?)
    } else {
        Ok(format!(in alloc; "[{names}]")?)
    }
}

fn in_folder(alloc: Global, root: &str, target: &str) -> Answer {
    match Below::of_path(alloc, target, HiddenNames::Refused)? {
        Some(below) => below.in_folder(alloc, root),
        None => text(alloc, "none"),
    }
}
