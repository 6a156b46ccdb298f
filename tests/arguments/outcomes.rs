//! What arguments come as.
use bytes::Bytes;
use std::alloc::Global;
use std::fmt::Display;
use std::process::Abort;
use web_body::{Payload, Poll, Step};
use web_extract::FromRequest;
use web_reply::{Error, ResponseError};
use web_request::{App, HttpRequest};

/// A text, and the status of the error that it comes of; 200 where it is a value's.
pub(crate) type Outcome = (u16, String);

/// The status and the text of a refusal.
pub(crate) fn refused(rt: &impl Abort, alloc: Global, error: Error) -> Outcome {
    let status = error.as_response_error().status_code().as_u16();
    (status, error.to_string(alloc).expect(rt, "memory"))
}

/// What an argument came as: the text of its value, or of its refusal.
pub(crate) fn outcome<T: Display + Drop, E: Into<Error> + Drop>(
    rt: &impl Abort,
    alloc: Global,
    found: Result<T, E>,
) -> Outcome {
    match found {
        Ok(value) => (200, value.to_string(alloc).expect(rt, "memory")),
        Err(error) => refused(rt, alloc, error.into()),
    }
}

/// The value of the first poll.
pub(crate) fn first_value<F: Poll>(rt: &impl Abort, alloc: Global, mut future: F) -> F::Output {
    assert!(rt; !future.finished());
    match future.poll(alloc) {
        Step::Ready(value) => value,
        Step::Pending => panic!(rt; "pending"),
        Step::NoMemory => panic!(rt; "memory"),
    }
}

/// What the first poll of an argument gives of a request without a payload.
pub(crate) fn argument<A: App, T: FromRequest<A>>(
    rt: &impl Abort,
    alloc: Global,
    request: &HttpRequest<A>,
) -> Result<T, T::Error> {
    let future = T::extract(alloc, request).expect(rt, "memory");
    first_value(rt, alloc, future)
}

/// What the first poll of an argument gives of a body in memory, and whether the payload is left.
pub(crate) fn first_of<A: App, T: FromRequest<A>>(
    rt: &impl Abort,
    alloc: Global,
    request: &HttpRequest<A>,
    body: &'static [u8],
) -> (Result<T, T::Error>, bool) {
    let mut payload = Payload::Whole(Bytes::from_static(body));
    let future = T::from_request(alloc, request, &mut payload).expect(rt, "memory");
    let value = first_value(rt, alloc, future);
    (value, !matches!(payload, Payload::None))
}

/// Compares the first poll with a status and a text, and whether the payload is left.
pub(crate) fn assert_first<A: App, T: FromRequest<A> + Display>(
    rt: &impl Abort,
    alloc: Global,
    request: &HttpRequest<A>,
    body: &'static [u8],
    expected: (u16, &str, bool),
) {
    let (found, is_left) = first_of::<A, T>(rt, alloc, request, body);
    let (status, text) = outcome(rt, alloc, found);
    assert_eq!(rt; (status, text.as_str(), is_left), expected);
}

/// Compares the first poll of an argument that reads no body with a status and a text.
pub(crate) fn assert_argument<A: App, T: FromRequest<A> + Display>(
    rt: &impl Abort,
    alloc: Global,
    request: &HttpRequest<A>,
    expected: (u16, &str),
) {
    assert_first::<A, T>(rt, alloc, request, b"ab", (expected.0, expected.1, true));
}
