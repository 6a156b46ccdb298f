//! Refusals as JSON: the reply to each by both handlers.
use crate::printed::assert_reply;
use crate::requests::{Site, new_request};
use http::StatusCode;
use std::alloc::Global;
use std::process::Abort;
use web_body::{JsonPayloadError, PathError, PayloadError, QueryPayloadError, UrlencodedError};
use web_codec::{JsonFault, ReadFault, WriteFault};
use web_extract::Refuse;
use web_reply::{Cause, Error, ResponseError};
use web_request::HttpRequest;
use web_status::{JsonErrors, UnprocessableJson, json_error, json_error_reply};
use web_texts::Text;

/// A refusal, the statuses that both handlers answer it with, and the text in the reply.
type Row = (&'static str, u16, u16, &'static str);

const JSON: &[Row] = &[
    (
        "known length",
        413,
        413,
        "JSON payload (9 bytes) is larger than allowed (limit: 8 bytes).",
    ),
    (
        "overflow",
        413,
        413,
        "JSON payload has exceeded limit (8 bytes).",
    ),
    ("type", 400, 400, "Content type error"),
    ("syntax", 400, 400, "Json deserialize error: no JSON"),
    ("float", 400, 400, "Json deserialize error: float"),
    (
        "reader",
        400,
        422,
        "Json deserialize error: price: cents: missing",
    ),
    (
        "writer",
        500,
        500,
        "Json serialize error: price: cents: missing",
    ),
    (
        "body",
        400,
        400,
        "Error that occur during reading payload: payload read failed",
    ),
];

const FORMS: &[Row] = &[
    (
        "overflow",
        413,
        413,
        "URL encoded payload is larger (9 bytes) than allowed (limit: 8 bytes).",
    ),
    ("length", 411, 411, "Payload size is now known."),
    ("type", 415, 415, "Content type error."),
    ("reader", 400, 422, "Parse error: price: cents: missing."),
];

fn read_fault(rt: &impl Abort, alloc: Global) -> ReadFault {
    let text = Text::of(alloc, "price: cents: missing").expect(rt, "memory");
    ReadFault { text }
}

fn json_refusal(rt: &impl Abort, alloc: Global, name: &str) -> JsonPayloadError {
    let (length, limit) = (9, 8);
    let fault = read_fault(rt, alloc);
    match name {
        "known length" => JsonPayloadError::OverflowKnownLength { length, limit },
        "overflow" => JsonPayloadError::Overflow { limit },
        "type" => JsonPayloadError::ContentType,
        "syntax" => JsonPayloadError::Deserialize(JsonFault::Syntax),
        "float" => JsonPayloadError::Deserialize(JsonFault::Float),
        "reader" => JsonPayloadError::Deserialize(JsonFault::Target(fault)),
        "writer" => JsonPayloadError::Serialize(WriteFault { text: fault.text }),
        _ => JsonPayloadError::Payload(PayloadError::Io),
    }
}

fn form_refusal(rt: &impl Abort, alloc: Global, name: &str) -> UrlencodedError {
    let (size, limit) = (9, 8);
    match name {
        "overflow" => UrlencodedError::Overflow { size, limit },
        "length" => UrlencodedError::UnknownLength,
        "type" => UrlencodedError::ContentType,
        _ => UrlencodedError::Parse(read_fault(rt, alloc)),
    }
}

/// Compares the status of an error, and its reply, with what is expected.
fn assert_error(rt: &impl Abort, alloc: Global, mut error: Error, status: u16, text: &str) {
    let found = error.as_response_error().status_code().as_u16();
    assert_eq!(rt; found, status);
    let reply = error.error_response(alloc).expect(rt, "memory");
    let expected = format!(in alloc;
        "{status}; content-type: application/json; bytes {{\"error\":\"{text}\"}}"
    );
    assert_reply(rt, alloc, reply, expected.expect(rt, "memory").as_str());
}

/// Compares the error that a handler makes of a refusal with what is expected.
fn assert_refused<E: Drop, H: Refuse<E>>(
    rt: &impl Abort,
    alloc: Global,
    handler: H,
    refusal: E,
    status: u16,
    text: &str,
) {
    let request: HttpRequest<Site> = new_request(rt, alloc, "/");
    let error = handler.refuse(alloc, refusal, request.head());
    assert_error(rt, alloc, error.expect(rt, "memory"), status, text);
}

#[test]
fn json_bodies_are_refused_as_json(rt: HostRuntime) {
    let alloc = rt.alloc();
    for (name, status, unprocessable, text) in JSON {
        let refusal = json_refusal(&rt, alloc, name);
        assert_refused(&rt, alloc, JsonErrors, refusal, *status, text);
        let refusal = json_refusal(&rt, alloc, name);
        assert_refused(&rt, alloc, UnprocessableJson, refusal, *unprocessable, text);
    }
}

#[test]
fn forms_are_refused_as_json(rt: HostRuntime) {
    let alloc = rt.alloc();
    for (name, status, unprocessable, text) in FORMS {
        let refusal = form_refusal(&rt, alloc, name);
        assert_refused(&rt, alloc, JsonErrors, refusal, *status, text);
        let refusal = form_refusal(&rt, alloc, name);
        assert_refused(&rt, alloc, UnprocessableJson, refusal, *unprocessable, text);
    }
}

#[test]
fn targets_are_refused_as_json(rt: HostRuntime) {
    let alloc = rt.alloc();
    let refusal = PathError::Deserialize(read_fault(&rt, alloc));
    assert_refused(
        &rt,
        alloc,
        JsonErrors,
        refusal,
        404,
        "price: cents: missing",
    );
    let refusal = QueryPayloadError::Deserialize(read_fault(&rt, alloc));
    let text = "Query deserialize error: price: cents: missing";
    assert_refused(&rt, alloc, JsonErrors, refusal, 400, text);
}

#[test]
fn any_cause_is_an_error_as_json(rt: HostRuntime) {
    let alloc = rt.alloc();
    let error = json_error(alloc, Cause::MissingPeer).expect(&rt, "memory");
    assert_error(&rt, alloc, error, 500, "Missing peer address");
    let reply = json_error_reply(alloc, StatusCode::NOT_FOUND, "no \"page\"");
    let expected = "404; content-type: application/json; bytes {\"error\":\"no \\\"page\\\"\"}";
    assert_reply(&rt, alloc, reply.expect(&rt, "memory"), expected);
}
