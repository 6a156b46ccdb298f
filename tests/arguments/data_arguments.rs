//! Data, the parts of the head, the request and its payload as arguments.
use crate::compare::{assert_holds, assert_same};
use crate::layered_requests::{Layer, Layered, Parts, layered_request, targeted};
use crate::outcomes::{Outcome, argument, assert_argument, first_value, refused};
use crate::requests::Visits;
use bytes::Bytes;
use http::Method;
use http_uri::Uri;
use std::alloc::Global;
use std::process::Abort;
use web_body::{Marks, Payload};
use web_extract::FromRequest;
use web_reply::Error;
use web_request::{Data, HttpRequest, Mark, ReqData, Turn};

/// A layer with this number.
fn numbered(rt: &impl Abort, alloc: Global, number: Option<u64>) -> Layer {
    let number = match number {
        Some(number) => Some(Data::new(alloc, number).expect(rt, "memory")),
        None => None,
    };
    Layer {
        number,
        ..Layer::new()
    }
}

/// The status and the text of a refusal, or 200 and the number.
fn number_outcome(rt: &impl Abort, alloc: Global, found: Result<u64, Error>) -> Outcome {
    match found {
        Ok(number) => (200, number.to_string(alloc).expect(rt, "memory")),
        Err(error) => refused(rt, alloc, error),
    }
}

/// Compares the number of the layers.
fn assert_layers(
    rt: &impl Abort,
    alloc: Global,
    request: &HttpRequest<Layered>,
    expected: (u16, &str),
) {
    let found = argument::<Layered, Data<u64>>(rt, alloc, request).map(|number| **number);
    let (status, text) = number_outcome(rt, alloc, found);
    assert_same(rt, (status, text.as_str()), expected);
}

/// Compares the number of the request.
fn assert_own(
    rt: &impl Abort,
    alloc: Global,
    request: &HttpRequest<Layered>,
    expected: (u16, &str),
) {
    let found = argument::<Layered, ReqData<Visits>>(rt, alloc, request).map(|it| it.count);
    let (status, text) = number_outcome(rt, alloc, found);
    assert_same(rt, (status, text.as_str()), expected);
}

const NO_DATA: (u16, &str) = (
    500,
    "Requested application data is not configured correctly. View/enable debug logs for more \
     details.",
);

const NO_REQUEST_DATA: (u16, &str) = (500, "Missing expected request extension data");

/// The numbers of two layers, the outer one first, and of a request, and the status and the text of
/// both arguments.
type NumberRow = (
    Option<u64>,
    Option<u64>,
    Option<u64>,
    (u16, &'static str),
    (u16, &'static str),
);

const NUMBERS: &[NumberRow] = &[
    (None, Some(5), Some(6), (200, "5"), (200, "6")),
    (Some(4), Some(5), None, (200, "5"), NO_REQUEST_DATA),
    (Some(4), None, Some(6), (200, "4"), (200, "6")),
    (None, None, None, NO_DATA, NO_REQUEST_DATA),
    (None, None, Some(6), NO_DATA, (200, "6")),
];

fn assert_numbers(rt: &impl Abort, alloc: Global, row: &NumberRow) {
    let parts = Parts {
        local: row.2,
        conn: Some(7),
        ..targeted("/data")
    };
    let outer = numbered(rt, alloc, row.0);
    let inner = numbered(rt, alloc, row.1);
    let request = layered_request(rt, alloc, &parts, outer, inner);
    assert_layers(rt, alloc, &request, row.3);
    assert_own(rt, alloc, &request, row.4);
    assert_same(rt, request.conn_data::<u64>().copied(), Some(7));
}

#[test]
fn data_stand_in_three_places(rt: HostRuntime) {
    let alloc = rt.alloc();
    for row in NUMBERS {
        assert_numbers(&rt, alloc, row);
    }
}

/// Compares the query and the serial number of the request as an argument.
fn assert_copy(rt: &impl Abort, alloc: Global, request: &HttpRequest<Layered>) {
    let copy = argument::<Layered, HttpRequest<Layered>>(rt, alloc, request);
    let copy = copy.ok().expect(rt, "a request");
    assert_same(rt, (copy.query_string(), copy.serial()), ("b=c", 0));
}

#[test]
fn the_head_and_the_request_are_arguments(rt: HostRuntime) {
    let alloc = rt.alloc();
    let parts = targeted("/a?b=c");
    let request = layered_request(&rt, alloc, &parts, Layer::new(), Layer::new());
    assert_argument::<Layered, Uri>(&rt, alloc, &request, (200, "/a?b=c"));
    assert_argument::<Layered, Method>(&rt, alloc, &request, (200, "PUT"));
    assert_copy(&rt, alloc, &request);
}

/// `ab`, then a stall.
fn unread(rt: &impl Abort, alloc: Global) -> Payload<Marks> {
    let marks = vec![in alloc; Mark::Piece(Bytes::from_static(b"ab")), Mark::Stall];
    Payload::Stream(Marks::new(marks.expect(rt, "memory")))
}

fn assert_piece(rt: &impl Abort, turn: &Turn, expected: &[u8]) {
    let agrees = match turn {
        Turn::Piece(bytes) => bytes.as_slice() == expected,
        Turn::Stall | Turn::Fault | Turn::End | Turn::NoMemory => false,
    };
    assert_holds(rt, "the piece", agrees);
}

/// Makes the argument of the payload, which it takes.
fn raw_payload(rt: &impl Abort, alloc: Global, request: &HttpRequest<Layered>) -> Payload<Marks> {
    let mut payload = unread(rt, alloc);
    let future = <Payload<Marks> as FromRequest<Layered>>::from_request(
        alloc,
        request,
        &mut payload,
    );
    assert_holds(rt, "it is taken", matches!(payload, Payload::None));
    first_value(rt, alloc, future.expect(rt, "memory"))
        .ok()
        .expect(rt, "a payload")
}

fn assert_marks(rt: &impl Abort, mut raw: Payload<Marks>) {
    assert_piece(rt, &raw.poll_next(), b"ab");
    assert_holds(rt, "a stall", matches!(raw.poll_next(), Turn::Stall));
    assert_holds(rt, "the end", matches!(raw.poll_next(), Turn::End));
}

#[test]
fn a_payload_comes_unread(rt: HostRuntime) {
    let alloc = rt.alloc();
    let parts = targeted("/raw");
    let request = layered_request(&rt, alloc, &parts, Layer::new(), Layer::new());
    assert_marks(&rt, raw_payload(&rt, alloc, &request));
}
