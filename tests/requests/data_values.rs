//! Values read from JSON and from fields by the readers of the library, and written again.
use crate::compare::assert_same;
use serde::{Deserialize, Serialize};
use serde_json::Value;
use std::alloc::Global;
use std::fmt::Display;
use std::process::Abort;
use web_codec::{
    JsonFault, ReadFault, ReadJson, ReadPairs, Typed, WriteField, WriteJson, all_fields,
    decode_form, decode_json, deny_unknown, field_or, member_or, object, pairs_text, read_value,
    required, required_field, write_value,
};
use web_texts::{Fail, Items, Pair, Text};

/// What reads a text, the text, and what comes of it: a text, or the text of a fault.
type Row = (&'static str, &'static str, &'static str);

/// What is no such number is refused so, of a field or member `a` with its name.
const NO_U8: &str = "no whole number from 0 to 255";

const NO_I8: &str = "no whole number from -128 to 127";

const NO_U8_OF_A: &str = "a: no whole number from 0 to 255";

const NO_I8_OF_A: &str = "a: no whole number from -128 to 127";

/// Compares what comes of each text with what is expected.
fn assert_rows<F: Fn(&str, &str) -> Text + Drop>(rt: &impl Abort, rows: &[Row], f: F) {
    for (reader, text, expected) in rows {
        assert_same(rt, f(reader, text).as_str(), *expected);
    }
}

/// A type that is read of a body, and the text that is written of its value.
const VALUES: &[Row] = &[
    ("u8", "255", "255"),
    ("u8", "256", NO_U8),
    ("u8", "-1", NO_U8),
    ("u8", "\"1\"", NO_U8),
    ("u8", "1.0", "float"),
    ("u8", "1", "1"),
    ("u16", "65535", "65535"),
    ("u16", "65536", "no whole number from 0 to 65535"),
    ("u32", "4294967295", "4294967295"),
    ("u32", "4294967296", "no whole number from 0 to 4294967295"),
    ("u64", "18446744073709551615", "18446744073709551615"),
    ("u64", "18446744073709551616", "float"),
    ("usize", "18446744073709551615", "18446744073709551615"),
    ("i8", "-128", "-128"),
    ("i8", "127", "127"),
    ("i8", "-129", NO_I8),
    ("i8", "128", NO_I8),
    ("i16", "-32768", "-32768"),
    ("i16", "32768", "no whole number from -32768 to 32767"),
    ("i32", "-2147483648", "-2147483648"),
    (
        "i32",
        "-2147483649",
        "no whole number from -2147483648 to 2147483647",
    ),
    ("i64", "-9223372036854775808", "-9223372036854775808"),
    (
        "i64",
        "9223372036854775808",
        "no whole number from -9223372036854775808 to 9223372036854775807",
    ),
    ("isize", "9223372036854775807", "9223372036854775807"),
    ("text", "\"a\\u00e9\"", "\"a\u{e9}\""),
    ("text", "1", "no text"),
    ("text", "null", "no text"),
    ("bool", "true", "true"),
    ("bool", "0", "neither true nor false"),
    ("option", "null", "null"),
    ("option", "7", "7"),
    ("option", "-7", NO_U8),
    ("items", "[1,2]", "[1,2]"),
    ("items", "[]", "[]"),
    ("items", "{}", "no list"),
    ("items", "[1,256,-1]", NO_U8),
    (
        "value",
        "{\"b\":[1,null],\"a\":\"x\"}",
        "{\"a\":\"x\",\"b\":[1,null]}",
    ),
    ("value", "{\"b\":[1.5]}", "float"),
    (
        "typed",
        "{\"name\":\"ab\",\"n\":7,\"other\":[]}",
        "{\"n\":7,\"name\":\"ab\"}",
    ),
    (
        "typed",
        "{\"name\":\"ab\",\"n\":7,\"n\":8}",
        "duplicate field `n` at line 1 column 20",
    ),
];

/// A type that serde reads and writes.
#[derive(Debug, Drop, Deserialize, Serialize)]
struct Named {
    name: String,
    n: u8,
}

fn printed<T: Display + Drop>(rt: &impl Abort, alloc: Global, value: T) -> Text {
    Text::from(value.to_string(alloc).expect(rt, "memory"))
}

/// The text that is written of a body's value, or of the fault.
fn written<T: ReadJson + WriteJson>(rt: &impl Abort, alloc: Global, body: &str) -> Text {
    match decode_json::<T>(alloc, body.as_bytes()) {
        Ok(value) => write_value(alloc, &value).ok().expect(rt, "a text"),
        Err(Fail::Of(fault)) => printed(rt, alloc, fault),
        Err(Fail::NoMemory) => panic!(rt; "memory"),
    }
}

fn written_as(rt: &impl Abort, alloc: Global, kind: &str, body: &str) -> Text {
    match kind {
        "u8" => written::<u8>(rt, alloc, body),
        "u16" => written::<u16>(rt, alloc, body),
        "u32" => written::<u32>(rt, alloc, body),
        "u64" => written::<u64>(rt, alloc, body),
        "usize" => written::<usize>(rt, alloc, body),
        "i8" => written::<i8>(rt, alloc, body),
        "i16" => written::<i16>(rt, alloc, body),
        "i32" => written::<i32>(rt, alloc, body),
        "i64" => written::<i64>(rt, alloc, body),
        "isize" => written::<isize>(rt, alloc, body),
        "text" => written::<Text>(rt, alloc, body),
        "bool" => written::<bool>(rt, alloc, body),
        "option" => written::<Option<u8>>(rt, alloc, body),
        "items" => written::<Items<u8>>(rt, alloc, body),
        "value" => written::<Value>(rt, alloc, body),
        _ => written::<Typed<Named>>(rt, alloc, body),
    }
}

#[test]
fn values_are_read_and_written(rt: HostRuntime) {
    let alloc = rt.alloc();
    assert_rows(&rt, VALUES, |kind: &str, body: &str| -> Text {
        written_as(&rt, alloc, kind, body)
    });
}

/// A helper that reads a member of an object.
const MEMBERS: &[Row] = &[
    ("required", "{\"a\":1}", "1"),
    ("required", "{\"A\":1}", "a: missing"),
    ("required", "[]", "a: missing"),
    ("required", "{\"a\":\"secret\"}", NO_U8_OF_A),
    ("required", "{\"a\":null}", NO_U8_OF_A),
    ("member_or", "{}", "7"),
    ("member_or", "{\"a\":8}", "8"),
    ("member_or", "{\"a\":null}", NO_U8_OF_A),
    ("object", "{}", "0"),
    ("object", "[]", "no object"),
    ("deny", "{\"b\":1,\"a\":2}", "0"),
    ("deny", "{}", "0"),
    ("deny", "{\"a\":1,\"secret\":2}", "unknown member"),
    ("deny", "[1]", "0"),
];

/// The text of a number, or of a refusal.
fn shown(rt: &impl Abort, alloc: Global, found: Result<u8, Fail<ReadFault>>) -> Text {
    match found {
        Ok(n) => printed(rt, alloc, n),
        Err(Fail::Of(fault)) => fault.text,
        Err(Fail::NoMemory) => panic!(rt; "memory"),
    }
}

/// Zero, or a refusal.
fn none_of(found: Result<(), Fail<ReadFault>>) -> Result<u8, Fail<ReadFault>> {
    found?;
    Ok(0)
}

fn member_of(alloc: Global, helper: &str, value: &Value) -> Result<u8, Fail<ReadFault>> {
    match helper {
        "required" => required(alloc, value, "a"),
        "member_or" => member_or(alloc, value, "a", 7),
        "object" => none_of(object(alloc, value)),
        _ => none_of(deny_unknown(alloc, value, &["a", "b"])),
    }
}

#[test]
fn members_are_read_of_objects(rt: HostRuntime) {
    let alloc = rt.alloc();
    assert_rows(&rt, MEMBERS, |helper: &str, body: &str| -> Text {
        let value = read_value(alloc, body.as_bytes()).ok();
        let value = value.expect(&rt, "a value");
        shown(&rt, alloc, member_of(alloc, helper, &value))
    });
}

/// What is read of a form.
const FIELDS: &[Row] = &[
    ("required", "a=1&a=2", "1"),
    ("required", "b=1", "a: missing"),
    ("required", "a=secret", NO_U8_OF_A),
    ("required", "a=256", NO_U8_OF_A),
    ("required", "a=007", "7"),
    ("required", "a=", NO_U8_OF_A),
    ("field_or", "b=1", "7"),
    ("field_or", "a=300", NO_U8_OF_A),
    ("all", "a=1&b=x&a=2", "2"),
    ("all", "a=1&a=x", NO_U8_OF_A),
    ("all", "", "0"),
    ("single", "a=5", "5"),
    ("single", "a=5&b=6", "not one value"),
    ("single", "", "not one value"),
    ("signed", "a=-128", "128"),
    ("signed", "a=-129", NO_I8_OF_A),
    ("signed", "a=127", "127"),
    ("signed", "a=%2B5", NO_I8_OF_A),
    ("signed", "a=-", NO_I8_OF_A),
    ("bool", "a=true", "1"),
    ("bool", "a=1", "a: neither true nor false"),
    ("pair", "a=xyz&b=5", "8"),
    ("pair", "a=xyz", "too few values"),
    ("pair", "a=xyz&b=y", "b: no whole number from 0 to 255"),
    ("four", "a=1&b=2&c=3&d=4&e=5", "10"),
    ("typed", "n=5&name=abc&other=", "8"),
];

fn read_of<T: ReadPairs>(alloc: Global, form: &str) -> Result<T, Fail<ReadFault>> {
    decode_form::<T>(alloc, form.as_bytes())
}

/// A helper that reads the field `a`.
fn helped(alloc: Global, helper: &str, pairs: &[Pair]) -> Result<u8, Fail<ReadFault>> {
    match helper {
        "required" => required_field(alloc, pairs, "a"),
        "field_or" => field_or(alloc, pairs, "a", 7),
        "bool" => Ok(u8::from(required_field::<bool>(alloc, pairs, "a")?)),
        "signed" => Ok(required_field::<i8>(alloc, pairs, "a")?.unsigned_abs()),
        _ => Ok(all_fields::<u8>(alloc, pairs, "a")?.as_slice().len() as u8),
    }
}

/// The length of a text and a number together.
fn sum(text: &str, n: u8) -> u8 {
    (text.len() as u8).saturating_add(n)
}

/// The number that a form is, or the lengths of its texts and its numbers together.
fn number_of(alloc: Global, kind: &str, form: &str) -> Result<u8, Fail<ReadFault>> {
    match kind {
        "single" => read_of::<u8>(alloc, form),
        "pair" => {
            let (text, n) = read_of::<(Text, u8)>(alloc, form)?;
            Ok(sum(text.as_str(), n))
        }
        "four" => {
            let (a, b, c, d) = read_of::<(u8, u16, u32, u8)>(alloc, form)?;
            Ok(
                a.saturating_add(b as u8)
                    .saturating_add(c as u8)
                    .saturating_add(d),
            )
        }
        "typed" => {
            let Typed(named) = read_of::<Typed<Named>>(alloc, form)?;
            Ok(sum(named.name.as_str(), named.n))
        }
        _ => {
            let pairs = web_codec::form_pairs(alloc, form.as_bytes())?;
            helped(alloc, kind, &pairs)
        }
    }
}

#[test]
fn fields_are_read_of_forms(rt: HostRuntime) {
    let alloc = rt.alloc();
    assert_rows(&rt, FIELDS, |kind: &str, form: &str| -> Text {
        shown(&rt, alloc, number_of(alloc, kind, form))
    });
}

/// Adds a field of this name.
fn add<T: WriteField + Drop>(
    rt: &impl Abort,
    alloc: Global,
    name: &str,
    value: T,
    pairs: &mut Vec<Pair>,
) {
    value.write_field(alloc, name, pairs).expect(rt, "memory");
}

#[test]
fn fields_are_written(rt: HostRuntime) {
    let alloc = rt.alloc();
    let mut pairs = Vec::new(alloc);
    add(&rt, alloc, "a", 255u8, &mut pairs);
    add(&rt, alloc, "b", -128i8, &mut pairs);
    add(&rt, alloc, "c", true, &mut pairs);
    add::<Option<u64>>(&rt, alloc, "d", None, &mut pairs);
    add(&rt, alloc, "e", Some(18446744073709551615u64), &mut pairs);
    let items = vec![in alloc; 1u16, 2].expect(&rt, "memory");
    add(&rt, alloc, "f", Items::of(items), &mut pairs);
    let text = pairs_text(alloc, &pairs).expect(&rt, "memory");
    assert_same(
        &rt,
        text.as_str(),
        "a=255&b=-128&c=true&e=18446744073709551615&f=1&f=2",
    );
}
