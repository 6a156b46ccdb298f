//! Texts, lists and digits.
use crate::answers::{Answer, no_number, no_such_call, printed_in_brackets, shown};
use std::alloc::Global;
use web_texts::{
    Duplicate, Items, NoMemory, Pair, Text, cut_at, cut_at_last, cut_first, is_token, number_of,
    read_digits, split_once_at, trim, trim_bytes,
};

pub(crate) fn answer(alloc: Global, name: &str, fields: &[&str]) -> Answer {
    match (name, fields) {
        ("trim", [field]) => shown(alloc, trim(field)),
        ("trim_bytes", [field]) => shown(alloc, str::from_utf8(trim_bytes(field.as_bytes()))),
        ("cut_at_plus", [field]) => shown(alloc, cut_at(field, b'+')),
        ("cut_at_last_plus", [field]) => shown(alloc, cut_at_last(field, b'+')),
        ("is_token", [field]) => shown(alloc, is_token(field)),
        ("Text", [field]) => printed_in_brackets(alloc, &Text::of(alloc, field)?),
        ("Text::from", [field]) => {
            let string = String::from_str(alloc, field)?;
            printed_in_brackets(alloc, &Text::from(string))
        }
        ("Pair", [name, value]) => pair(alloc, name, value),
        ("Items::as_slice", []) => shown(alloc, items(alloc)?.as_slice()),
        ("Items::into_vec", []) => shown(alloc, items(alloc)?.into_vec()),
        _ => byte_answer(alloc, name, fields),
    }
}

fn byte_answer(alloc: Global, name: &str, fields: &[&str]) -> Answer {
    match (name, fields) {
        ("split_once_at_space", [field]) => shown(alloc, split_once_at(field.as_bytes(), b' ')),
        ("cut_first_space", [field]) => shown(alloc, cut_first(field.as_bytes(), b' ')),
        ("read_digits", [field, max]) => digits(alloc, field, max),
        _ => no_such_call(alloc),
    }
}

/// The number that both readers of digits read, one of a text and one of bytes.
fn digits(alloc: Global, field: &str, max: &str) -> Answer {
    match max.parse::<u64>() {
        Ok(max) => {
            let found = (read_digits(field, max), number_of(field.as_bytes(), max));
            shown(alloc, found)
        }
        Err(_) => no_number(alloc),
    }
}

/// The texts of a copy.
fn pair(alloc: Global, name: &str, value: &str) -> Answer {
    let copy = Pair::new(alloc, name, value)?.duplicate(alloc)?;
    let (name, value) = (copy.name(), copy.value());
    Ok(format!(in alloc; "[{name}] [{value}]")?)
}

/// Items that are there first, and one that is added.
fn items(alloc: Global) -> Result<Items<u8>, NoMemory> {
    let mut items = Items::of(vec![in alloc; 3, 1]?);
    items.push(2)?;
    Ok(items)
}
