//! Bodies of responses.
use crate::compare::assert_same;
use crate::printed::assert_body;
use bytes::Bytes;
use std::alloc::Global;
use std::process::Abort;
use web_body::{Marks, Payload};
use web_reply::{BodySize, BoxBody, ByteStr, EitherBody, MessageBody, WholeBody};
use web_request::Text;

/// Compares a body of bytes, which are a text.
fn assert_bytes<B: MessageBody<Marks>>(rt: &impl Abort, alloc: Global, body: B, text: &str) {
    let expected = format!(in alloc; "; bytes {text}").expect(rt, "memory");
    let size = BodySize::Sized(text.len() as u64);
    assert_body(rt, alloc, body, size, expected.as_str());
}

fn assert_empty<B: MessageBody<Marks>>(rt: &impl Abort, alloc: Global, body: B) {
    assert_body(rt, alloc, body, BodySize::Sized(0), "; empty");
}

#[test]
fn texts_and_bytes_are_bodies(rt: HostRuntime) {
    let alloc = rt.alloc();
    assert_empty(&rt, alloc, ());
    assert_bytes(&rt, alloc, Bytes::from_static(b"ab"), "ab");
    let vec = vec![in alloc; 7u8].expect(&rt, "memory");
    assert_bytes(&rt, alloc, vec, "\x07");
    assert_bytes(&rt, alloc, Vec::new(alloc), "");
    let string = String::from_str(alloc, "ü").expect(&rt, "memory");
    assert_bytes(&rt, alloc, string, "ü");
    let text = Text::of(alloc, "grün").expect(&rt, "memory");
    assert_bytes(&rt, alloc, text, "grün");
}

type Sides = EitherBody<Bytes, ()>;

type Common = BoxBody<Marks>;

#[test]
fn bodies_of_several_kinds_are_bodies(rt: HostRuntime) {
    let alloc = rt.alloc();
    assert_empty(&rt, alloc, WholeBody::Empty);
    let whole = WholeBody::Bytes(Bytes::from_static(b"abc"));
    assert_bytes(&rt, alloc, whole, "abc");
    let left: Sides = EitherBody::Left(Bytes::from_static(b"l"));
    assert_bytes(&rt, alloc, left, "l");
    let right: Sides = EitherBody::Right(());
    assert_empty(&rt, alloc, right);
    let common: Common = BoxBody::Empty;
    assert_empty(&rt, alloc, common);
    let common: Common = BoxBody::Bytes(Bytes::from_static(b"c"));
    assert_bytes(&rt, alloc, common, "c");
}

fn boxed(rt: &impl Abort, alloc: Global, payload: Payload<Marks>) -> Box<Payload<Marks>> {
    Box::new(alloc, payload).expect(rt, "memory")
}

#[test]
fn payloads_are_bodies(rt: HostRuntime) {
    let alloc = rt.alloc();
    let sized: Common = BoxBody::Sized(9, boxed(&rt, alloc, Payload::None));
    assert_body(&rt, alloc, sized, BodySize::Sized(9), "; sized 9 nothing");
    let whole = Payload::Whole(Bytes::from_static(b"ab"));
    let stream: Common = BoxBody::Stream(boxed(&rt, alloc, whole));
    assert_body(&rt, alloc, stream, BodySize::Stream, "; stream whole ab");
}

#[test]
fn bytes_are_a_text_where_they_are_utf_8(rt: HostRuntime) {
    let text = ByteStr::of(Bytes::from_static("grün".as_bytes())).ok();
    assert_same(&rt, text.as_ref().map_or("", |text| text.as_str()), "grün");
    let back = ByteStr::of(Bytes::from_static(&[0x61, 0xff])).err();
    let bytes = back.as_ref().map_or(b"".as_slice(), |back| back.as_slice());
    assert_same(&rt, bytes, [0x61, 0xff].as_slice());
}
