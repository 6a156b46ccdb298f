//! What calls give, as texts.
use std::alloc::Global;
use std::fmt::{Debug, Display, Write};
use web_texts::{Duplicate, Fail, NoMemory, ParseError, ReadText};

/// What a call gives, as a text.
pub(crate) type Answer = Result<String, NoMemory>;

pub(crate) fn text(alloc: Global, text: &str) -> Answer {
    Ok(String::from_str(alloc, text)?)
}

/// The answer to a call that is not known, or not with so many fields.
pub(crate) fn no_such_call(alloc: Global) -> Answer {
    text(alloc, "no such call with so many fields")
}

/// The answer where a field is no number.
pub(crate) fn no_number(alloc: Global) -> Answer {
    text(alloc, "no number in the row")
}

/// A value as `{:?}` writes it.
pub(crate) fn shown<T: Debug + Drop>(alloc: Global, value: T) -> Answer {
    Ok(format!(in alloc; "{value:?}")?)
}

/// A value's own text.
pub(crate) fn displayed<T: Display + Drop>(alloc: Global, value: T) -> Answer {
    Ok(format!(in alloc; "{value}")?)
}

/// A text in brackets.
pub(crate) fn in_brackets(alloc: Global, text: &str) -> Answer {
    Ok(format!(in alloc; "[{text}]")?)
}

/// A value's own text in brackets, or `none`.
pub(crate) fn or_none<T: Display>(alloc: Global, found: Option<&T>) -> Answer {
    match found {
        Some(value) => Ok(format!(in alloc; "[{value}]")?),
        None => text(alloc, "none"),
    }
}

/// The text with the text of each value in brackets after it.
pub(crate) fn with_each<T: Display>(shown: String, values: &[T]) -> Answer {
    let mut shown = shown;
    for value in values {
        if write!(shown, " [{value}]").is_err() {
            return Err(NoMemory);
        }
    }
    Ok(shown)
}

/// Whether a copy of a value is equal to it.
pub(crate) fn is_copied<T: Duplicate + PartialEq>(
    alloc: Global,
    value: &T,
) -> Result<bool, NoMemory> {
    let copy = value.duplicate(alloc)?;
    Ok(copy == *value)
}

/// The text that a value prints, if a copy is equal to it.
pub(crate) fn printed<T: Display + Duplicate + PartialEq>(alloc: Global, value: &T) -> Answer {
    if !is_copied(alloc, value)? {
        return text(alloc, "another copy");
    }
    Ok(format!(in alloc; "{value}")?)
}

/// The text that a value prints, in brackets.
pub(crate) fn printed_in_brackets<T: Display + Duplicate + PartialEq>(
    alloc: Global,
    value: &T,
) -> Answer {
    let printed = printed(alloc, value)?;
    in_brackets(alloc, printed.as_str())
}

/// The answer to a call that gave an error.
pub(crate) fn refused(alloc: Global, error: Fail<ParseError>) -> Answer {
    match error {
        Fail::NoMemory => Err(NoMemory),
        Fail::Of(ParseError::Header) => text(alloc, "refused"),
    }
}

/// The text that the value of a text prints, in brackets, or `refused`.
pub(crate) fn read_text<T: ReadText + Display + Duplicate + PartialEq>(
    alloc: Global,
    text: &str,
) -> Answer {
    match T::parse(alloc, text) {
        Ok(value) => printed_in_brackets(alloc, &value),
        Err(error) => refused(alloc, error),
    }
}
