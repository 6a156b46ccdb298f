//! Arguments, alone and in lists, and the futures that they are made by.
use crate::compare::assert_same;
use crate::requests::{failing, hello, request};
use bytes::Bytes;
use example_handlers::{RequestPath, Site};
use std::alloc::Global;
use std::fmt::Debug;
use std::process::Abort;
use web_body::{Marks, Payload};
use web_extract::{
    EitherFuture, Error, FromRequest, MapInto, Never, Poll, Ready, Step, from_request_into,
};
use web_request::NoData;

/// Polls a future until its value is there. Returns the number of polls that returned `Pending`,
/// and the value.
pub(crate) fn value_of<F: Poll>(
    rt: &impl Abort,
    alloc: Global,
    mut future: F,
) -> (usize, F::Output) {
    for stalls in 0..9 {
        if future.finished() {
            panic!(rt; "finished without a value");
        }
        match future.poll(alloc) {
            Step::Pending => {}
            Step::Ready(value) => return (stalls, value),
            Step::NoMemory => panic!(rt; "memory"),
        }
    }
    panic!(rt; "no value");
}

/// Compares what comes of a future: the number of polls that return `Pending`, and the value or
/// that it is refused.
fn assert_comes<T: Debug + Drop, E: Drop, F: Poll<Output = Result<T, E>>>(
    rt: &impl Abort,
    alloc: Global,
    future: F,
    expected: &str,
) {
    let (stalls, value) = value_of(rt, alloc, future);
    let text = match &value {
        Ok(value) => format!(in alloc; "{stalls} {value:?}"),
        Err(_) => format!(in alloc; "{stalls} refused"),
    };
    assert_same(rt, text.expect(rt, "memory").as_str(), expected);
}

/// Compares what comes of an argument of a request with this payload.
fn assert_argument<T: FromRequest<Site> + Debug>(
    rt: &impl Abort,
    alloc: Global,
    payload: &mut Payload<Marks>,
    expected: &str,
) {
    let request = request::<Site>(rt, alloc, NoData);
    let future = T::from_request(alloc, &request, payload).expect(rt, "memory");
    assert_comes(rt, alloc, future, expected);
}

/// Compares what comes of an argument of a request alone.
fn assert_alone<T: FromRequest<Site> + Debug>(rt: &impl Abort, alloc: Global, expected: &str) {
    let request = request::<Site>(rt, alloc, NoData);
    let future = T::extract(alloc, &request).expect(rt, "memory");
    assert_comes(rt, alloc, future, expected);
}

/// Compares what comes of an argument of a body with a stall, and of one with a fault.
fn assert_bodies<T: FromRequest<Site> + Debug>(
    rt: &impl Abort,
    alloc: Global,
    read: &str,
    faulty: &str,
) {
    assert_argument::<T>(rt, alloc, &mut hello(rt, alloc), read);
    assert_argument::<T>(rt, alloc, &mut failing(rt, alloc), faulty);
}

/// A list of four places with lists of no place, of one, of two and of three in it.
type Lists = (
    (),
    (Bytes,),
    (RequestPath, Option<Bytes>),
    (Result<Bytes, Error>, (), Bytes),
);

#[test]
fn the_first_place_that_takes_the_body_has_it(rt: HostRuntime) {
    let alloc = rt.alloc();
    assert_bodies::<Lists>(
        &rt,
        alloc,
        "1 ((), (b\"hello\",), (RequestPath(Text { text: \"/bytes\" }), Some(b\"\")), \
         (Ok(b\"\"), (), b\"\"))",
        "1 refused",
    );
    assert_alone::<Lists>(
        &rt,
        alloc,
        "0 ((), (b\"\",), (RequestPath(Text { text: \"/bytes\" }), Some(b\"\")), \
         (Ok(b\"\"), (), b\"\"))",
    );
}

#[test]
fn a_refusal_may_be_a_value(rt: HostRuntime) {
    let alloc = rt.alloc();
    assert_bodies::<(Option<Bytes>, Result<Bytes, Error>)>(
        &rt,
        alloc,
        "1 (Some(b\"hello\"), Ok(b\"\"))",
        "1 (None, Ok(b\"\"))",
    );
    assert_bodies::<Result<Bytes, Error>>(
        &rt,
        alloc,
        "1 Ok(b\"hello\")",
        "1 Err(Error { cause: Payload(Io), prepared: Never })",
    );
}

#[test]
fn bytes_take_the_payload(rt: HostRuntime) {
    let alloc = rt.alloc();
    let mut payload = hello(&rt, alloc);
    assert_argument::<Bytes>(&rt, alloc, &mut payload, "1 b\"hello\"");
    assert_argument::<Bytes>(&rt, alloc, &mut payload, "0 b\"\"");
    assert_same(&rt, matches!(payload, Payload::None), true);
}

/// A future of the body with its refusal converted, or a value that is there at once.
type EitherBody = EitherFuture<Ready<Result<Bytes, Error>>, MapInto<BodyFuture, Bytes, Error>>;

/// The future of the body as an argument.
type BodyFuture = <Bytes as FromRequest<Site>>::Future;

#[test]
fn futures_are_ready_converted_and_of_one_of_two_kinds(rt: HostRuntime) {
    let alloc = rt.alloc();
    let request = request::<Site>(&rt, alloc, NoData);
    let mut payload = failing(&rt, alloc);
    let body = from_request_into::<Site, Bytes, Bytes, Error>(alloc, &request, &mut payload);
    let either: EitherBody = EitherFuture::Right(body.expect(&rt, "memory"));
    assert_comes(&rt, alloc, either, "1 refused");
    let either: EitherBody = EitherFuture::Left(Ready::new(Ok(Bytes::from_static(b"a"))));
    assert_comes(&rt, alloc, either, "0 b\"a\"");
    let never: Result<u8, Never> = Ok(3);
    assert_comes(&rt, alloc, Ready::new(never), "0 3");
}
