//! Typed headers as arguments.
use crate::layered_requests::{Layer, Layered};
use crate::outcomes::assert_argument;
use crate::requests::{add, head, new_request};
use std::alloc::Global;
use std::fmt::Display;
use std::process::Abort;
use web_extract_head::Header;
use web_headers::{Accept, ContentLength, Date};
use web_request::RequestHead;

/// A head whose header of this type has these values.
fn head_with<T: web_headers::Header>(
    rt: &impl Abort,
    alloc: Global,
    values: &[&str],
) -> RequestHead {
    let mut head = head(rt, alloc, "/");
    for value in values {
        add(rt, alloc, &mut head, T::name(), value.as_bytes());
    }
    head
}

/// Compares the status and the printed header, or the text of the refusal.
fn assert_header<T: web_headers::Header + Display + Drop>(
    rt: &impl Abort,
    alloc: Global,
    values: &[&str],
    expected: (u16, &str),
) {
    let request = new_request(rt, alloc, Layer::new(), head_with::<T>(rt, alloc, values));
    assert_argument::<Layered, Header<T>>(rt, alloc, &request, expected);
}

const REFUSED: (u16, &str) = (400, "invalid header");

#[test]
fn headers_are_made_of_a_request(rt: HostRuntime) {
    let alloc = rt.alloc();
    assert_header::<Accept>(&rt, alloc, &[], (200, ""));
    assert_header::<Accept>(
        &rt,
        alloc,
        &["text/*;q=0.5", "a/b"],
        (200, "text/*; q=0.5, a/b"),
    );
    assert_header::<Accept>(&rt, alloc, &["a/b", "ÿ"], REFUSED);
    assert_header::<ContentLength>(&rt, alloc, &[" 07"], (200, "7"));
    assert_header::<Date>(&rt, alloc, &[], REFUSED);
    assert_header::<Date>(
        &rt,
        alloc,
        &["Sunday, 06-Nov-94 08:49:37 GMT", "no date"],
        (200, "Sun, 06 Nov 1994 08:49:37 GMT"),
    );
}
