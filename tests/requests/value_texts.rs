//! Values that JSON bodies and forms are read as, and the texts that they are written as.
use std::alloc::Global;
use std::process::Abort;
use web_codec::{JsonFault, form_pairs, holds_float, pairs_text, read_value};
use web_texts::{Fail, Pair, Text};

/// A body, and the text of its value or the fault that is expected.
const BODIES: [(&[u8], &str); 26] = [
    (b"\r{ \"n\" : 7, \"a\" : [] }\t", "{\"a\":[],\"n\":7}"),
    (b"{\"n\":true,\"\\u006e\":7}", "{\"n\":7}"),
    (b"{\"n\":1.5,\"n\":7}", "{\"n\":7}"),
    (b"18446744073709551615", "18446744073709551615"),
    (b"-9223372036854775808", "-9223372036854775808"),
    (b"\"\\ud83d\\ude00\\u001f\\/\"", "\"\u{1f600}\\u001f/\""),
    (b"", "no JSON"),
    (b"nul", "no JSON"),
    (b"True", "no JSON"),
    (b"{\"n\":7}{}", "no JSON"),
    (b"{\"n\":7}\0", "no JSON"),
    (b"{\"n\":01}", "no JSON"),
    (b"{\"n\":+1}", "no JSON"),
    (b"[1.]", "no JSON"),
    (b"[7,]", "no JSON"),
    (b"\"\t\"", "no JSON"),
    (b"\"\\ud83d\"", "no JSON"),
    (b"\"\\x\"", "no JSON"),
    (b"\"\xff\"", "no JSON"),
    (b"1e400", "no JSON"),
    (b"{\"n\":1e308,\"a\":1.8e308}", "no JSON"),
    (b"-0", "float"),
    (b"18446744073709551616", "float"),
    (b"-9223372036854775809", "float"),
    (b"{\"a\":{\"b\":[1,[2e-5]]}}", "float"),
    (b"[{\"a\":1.0}]", "float"),
];

/// A form, its names and values one after the other, and the form that is written of them.
const FORMS: [(&[u8], &str, &str); 14] = [
    (b"n=7&name=ab", "n 7 name ab ", "n=7&name=ab"),
    (b"name=a+b", "name a b ", "name=a+b"),
    (b"name=a%20b", "name a b ", "name=a+b"),
    (b"na+me=a%2Bb", "na me a+b ", "na+me=a%2Bb"),
    (b"a%3Db&n", "a=b  n  ", "a%3Db=&n="),
    (b"&&=&n=b=c&", "  n b=c ", "=&n=b%3Dc"),
    (b"%6e=%zz", "n %zz ", "n=%25zz"),
    (b"n=%4", "n %4 ", "n=%254"),
    (b"n=%", "n % ", "n=%25"),
    (b"n=~*-._", "n ~*-._ ", "n=%7E*-._"),
    (b"n=%00", "n \0 ", "n=%00"),
    (b"n=1&n=1", "n 1 n 1 ", "n=1&n=1"),
    (b"", "", ""),
    (b"+", "   ", "+="),
];

/// The text of the value of a body that holds no float, or its fault.
fn text_of(alloc: Global, body: &[u8]) -> Result<Text, Fail<JsonFault>> {
    let value = read_value(alloc, body)?;
    if holds_float(&value) {
        return Err(Fail::Of(JsonFault::Float));
    }
    Ok(Text::from(value.to_string(alloc)?))
}

fn assert_fault(rt: &impl Abort, alloc: Global, fault: &JsonFault, expected: &str) {
    let text = fault.to_string(alloc).expect(rt, "memory");
    assert_eq!(rt; text.as_str(), expected);
}

fn assert_body(rt: &impl Abort, alloc: Global, body: &[u8], expected: &str) {
    match text_of(alloc, body) {
        Ok(text) => assert_eq!(rt; text.as_str(), expected),
        Err(Fail::Of(fault)) => assert_fault(rt, alloc, &fault, expected),
        Err(Fail::NoMemory) => assert_eq!(rt; "memory", expected),
    }
}

/// The names and values, each with a space after it.
fn listed(rt: &impl Abort, alloc: Global, pairs: &[Pair]) -> String {
    let mut text = String::new(alloc);
    for pair in pairs {
        text.push_str(pair.name()).expect(rt, "memory");
        text.push(' ').expect(rt, "memory");
        text.push_str(pair.value()).expect(rt, "memory");
        text.push(' ').expect(rt, "memory");
    }
    text
}

fn assert_form(rt: &impl Abort, alloc: Global, form: &[u8], expected: &str, written: &str) {
    let pairs = form_pairs(alloc, form).expect(rt, "memory");
    let text = listed(rt, alloc, &pairs);
    assert_eq!(rt; text.as_str(), expected);
    let text = pairs_text(alloc, &pairs).expect(rt, "memory");
    assert_eq!(rt; text.as_str(), written);
}

#[test]
fn bodies_have_values_or_faults(rt: HostRuntime) {
    let alloc = rt.alloc();
    for (body, expected) in &BODIES {
        assert_body(&rt, alloc, body, expected);
    }
}

#[test]
fn forms_have_pairs(rt: HostRuntime) {
    let alloc = rt.alloc();
    for (form, expected, written) in &FORMS {
        assert_form(&rt, alloc, form, expected, written);
    }
}
