//! The names of statuses.
use crate::compare::assert_same;
use std::alloc::Global;
use std::process::Abort;
use web_build::HttpResponseBuilder;
use web_reply::{Error, HttpResponse};
use web_status::prelude::*;
use web_status::{
    ErrorBadGateway, ErrorBadRequest, ErrorConflict, ErrorExpectationFailed, ErrorFailedDependency,
    ErrorForbidden, ErrorGatewayTimeout, ErrorGone, ErrorHttpVersionNotSupported, ErrorImATeapot,
    ErrorInsufficientStorage, ErrorInternalServerError, ErrorLengthRequired, ErrorLocked,
    ErrorLoopDetected, ErrorMethodNotAllowed, ErrorMisdirectedRequest,
    ErrorNetworkAuthenticationRequired, ErrorNotAcceptable, ErrorNotExtended, ErrorNotFound,
    ErrorNotImplemented, ErrorPayloadTooLarge, ErrorPaymentRequired, ErrorPreconditionFailed,
    ErrorPreconditionRequired, ErrorProxyAuthenticationRequired, ErrorRangeNotSatisfiable,
    ErrorRequestHeaderFieldsTooLarge, ErrorRequestTimeout, ErrorServiceUnavailable,
    ErrorTooManyRequests, ErrorUnauthorized, ErrorUnavailableForLegalReasons,
    ErrorUnprocessableEntity, ErrorUnsupportedMediaType, ErrorUpgradeRequired, ErrorUriTooLong,
    ErrorVariantAlsoNegotiates,
};
use web_texts::NoMemory;

/// Compares the status of what a builder builds.
fn assert_status(rt: &impl Abort, builder: HttpResponseBuilder, expected: u16) {
    let mut builder = builder;
    if builder.is_spent() {
        panic!(rt; "the builder is spent");
    }
    let reply = builder.message_body(()).ok().expect(rt, "a response");
    assert_same(rt, reply.status().as_u16(), expected);
}

/// Compares the status and the text of an error.
fn assert_error(rt: &impl Abort, alloc: Global, error: Result<Error, NoMemory>, expected: u16) {
    let error = error.expect(rt, "memory");
    let text = format!(in alloc; "{error}").expect(rt, "memory");
    assert_same(rt, text.as_str(), "x");
    let reply = HttpResponse::from_error(alloc, error).expect(rt, "memory");
    assert_same(rt, reply.status().as_u16(), expected);
}

fn assert_informing_and_redirecting(rt: &impl Abort, alloc: Global) {
    assert_status(rt, HttpResponse::Continue(alloc), 100);
    assert_status(rt, HttpResponse::SwitchingProtocols(alloc), 101);
    assert_status(rt, HttpResponse::Processing(alloc), 102);
    assert_status(rt, HttpResponse::Ok(alloc), 200);
    assert_status(rt, HttpResponse::Created(alloc), 201);
    assert_status(rt, HttpResponse::Accepted(alloc), 202);
    assert_status(rt, HttpResponse::NonAuthoritativeInformation(alloc), 203);
    assert_status(rt, HttpResponse::NoContent(alloc), 204);
    assert_status(rt, HttpResponse::ResetContent(alloc), 205);
    assert_status(rt, HttpResponse::PartialContent(alloc), 206);
    assert_status(rt, HttpResponse::MultiStatus(alloc), 207);
    assert_status(rt, HttpResponse::AlreadyReported(alloc), 208);
    assert_status(rt, HttpResponse::ImUsed(alloc), 226);
    assert_status(rt, HttpResponse::MultipleChoices(alloc), 300);
    assert_status(rt, HttpResponse::MovedPermanently(alloc), 301);
    assert_status(rt, HttpResponse::Found(alloc), 302);
    assert_status(rt, HttpResponse::SeeOther(alloc), 303);
    assert_status(rt, HttpResponse::NotModified(alloc), 304);
    assert_status(rt, HttpResponse::UseProxy(alloc), 305);
    assert_status(rt, HttpResponse::TemporaryRedirect(alloc), 307);
    assert_status(rt, HttpResponse::PermanentRedirect(alloc), 308);
}

fn assert_first_errors(rt: &impl Abort, alloc: Global) {
    assert_status(rt, HttpResponse::BadRequest(alloc), 400);
    assert_status(rt, HttpResponse::Unauthorized(alloc), 401);
    assert_status(rt, HttpResponse::PaymentRequired(alloc), 402);
    assert_status(rt, HttpResponse::Forbidden(alloc), 403);
    assert_status(rt, HttpResponse::NotFound(alloc), 404);
    assert_status(rt, HttpResponse::MethodNotAllowed(alloc), 405);
    assert_status(rt, HttpResponse::NotAcceptable(alloc), 406);
    assert_status(rt, HttpResponse::ProxyAuthenticationRequired(alloc), 407);
    assert_status(rt, HttpResponse::RequestTimeout(alloc), 408);
    assert_status(rt, HttpResponse::Conflict(alloc), 409);
    assert_status(rt, HttpResponse::Gone(alloc), 410);
    assert_status(rt, HttpResponse::LengthRequired(alloc), 411);
    assert_status(rt, HttpResponse::PreconditionFailed(alloc), 412);
    assert_status(rt, HttpResponse::PayloadTooLarge(alloc), 413);
    assert_status(rt, HttpResponse::UriTooLong(alloc), 414);
    assert_status(rt, HttpResponse::UnsupportedMediaType(alloc), 415);
    assert_status(rt, HttpResponse::RangeNotSatisfiable(alloc), 416);
    assert_status(rt, HttpResponse::ExpectationFailed(alloc), 417);
    assert_status(rt, HttpResponse::ImATeapot(alloc), 418);
}

fn assert_last_errors(rt: &impl Abort, alloc: Global) {
    assert_status(rt, HttpResponse::MisdirectedRequest(alloc), 421);
    assert_status(rt, HttpResponse::UnprocessableEntity(alloc), 422);
    assert_status(rt, HttpResponse::Locked(alloc), 423);
    assert_status(rt, HttpResponse::FailedDependency(alloc), 424);
    assert_status(rt, HttpResponse::UpgradeRequired(alloc), 426);
    assert_status(rt, HttpResponse::PreconditionRequired(alloc), 428);
    assert_status(rt, HttpResponse::TooManyRequests(alloc), 429);
    assert_status(rt, HttpResponse::RequestHeaderFieldsTooLarge(alloc), 431);
    assert_status(rt, HttpResponse::UnavailableForLegalReasons(alloc), 451);
    assert_status(rt, HttpResponse::InternalServerError(alloc), 500);
    assert_status(rt, HttpResponse::NotImplemented(alloc), 501);
    assert_status(rt, HttpResponse::BadGateway(alloc), 502);
    assert_status(rt, HttpResponse::ServiceUnavailable(alloc), 503);
    assert_status(rt, HttpResponse::GatewayTimeout(alloc), 504);
    assert_status(rt, HttpResponse::VersionNotSupported(alloc), 505);
    assert_status(rt, HttpResponse::VariantAlsoNegotiates(alloc), 506);
    assert_status(rt, HttpResponse::InsufficientStorage(alloc), 507);
    assert_status(rt, HttpResponse::LoopDetected(alloc), 508);
    assert_status(rt, HttpResponse::NotExtended(alloc), 510);
    assert_status(rt, HttpResponse::NetworkAuthenticationRequired(alloc), 511);
}

fn assert_first_helpers(rt: &impl Abort, alloc: Global) {
    assert_error(rt, alloc, ErrorBadRequest(alloc, "x"), 400);
    assert_error(rt, alloc, ErrorUnauthorized(alloc, "x"), 401);
    assert_error(rt, alloc, ErrorPaymentRequired(alloc, "x"), 402);
    assert_error(rt, alloc, ErrorForbidden(alloc, "x"), 403);
    assert_error(rt, alloc, ErrorNotFound(alloc, "x"), 404);
    assert_error(rt, alloc, ErrorMethodNotAllowed(alloc, "x"), 405);
    assert_error(rt, alloc, ErrorNotAcceptable(alloc, "x"), 406);
    assert_error(rt, alloc, ErrorProxyAuthenticationRequired(alloc, "x"), 407);
    assert_error(rt, alloc, ErrorRequestTimeout(alloc, "x"), 408);
    assert_error(rt, alloc, ErrorConflict(alloc, "x"), 409);
    assert_error(rt, alloc, ErrorGone(alloc, "x"), 410);
    assert_error(rt, alloc, ErrorLengthRequired(alloc, "x"), 411);
    assert_error(rt, alloc, ErrorPreconditionFailed(alloc, "x"), 412);
    assert_error(rt, alloc, ErrorPayloadTooLarge(alloc, "x"), 413);
    assert_error(rt, alloc, ErrorUriTooLong(alloc, "x"), 414);
    assert_error(rt, alloc, ErrorUnsupportedMediaType(alloc, "x"), 415);
    assert_error(rt, alloc, ErrorRangeNotSatisfiable(alloc, "x"), 416);
    assert_error(rt, alloc, ErrorExpectationFailed(alloc, "x"), 417);
    assert_error(rt, alloc, ErrorImATeapot(alloc, "x"), 418);
    assert_error(rt, alloc, ErrorMisdirectedRequest(alloc, "x"), 421);
}

fn assert_last_helpers(rt: &impl Abort, alloc: Global) {
    assert_error(rt, alloc, ErrorUnprocessableEntity(alloc, "x"), 422);
    assert_error(rt, alloc, ErrorLocked(alloc, "x"), 423);
    assert_error(rt, alloc, ErrorFailedDependency(alloc, "x"), 424);
    assert_error(rt, alloc, ErrorUpgradeRequired(alloc, "x"), 426);
    assert_error(rt, alloc, ErrorPreconditionRequired(alloc, "x"), 428);
    assert_error(rt, alloc, ErrorTooManyRequests(alloc, "x"), 429);
    assert_error(rt, alloc, ErrorRequestHeaderFieldsTooLarge(alloc, "x"), 431);
    assert_error(rt, alloc, ErrorUnavailableForLegalReasons(alloc, "x"), 451);
    assert_error(rt, alloc, ErrorInternalServerError(alloc, "x"), 500);
    assert_error(rt, alloc, ErrorNotImplemented(alloc, "x"), 501);
    assert_error(rt, alloc, ErrorBadGateway(alloc, "x"), 502);
    assert_error(rt, alloc, ErrorServiceUnavailable(alloc, "x"), 503);
    assert_error(rt, alloc, ErrorGatewayTimeout(alloc, "x"), 504);
    assert_error(rt, alloc, ErrorHttpVersionNotSupported(alloc, "x"), 505);
    assert_error(rt, alloc, ErrorVariantAlsoNegotiates(alloc, "x"), 506);
    assert_error(rt, alloc, ErrorInsufficientStorage(alloc, "x"), 507);
    assert_error(rt, alloc, ErrorLoopDetected(alloc, "x"), 508);
    assert_error(rt, alloc, ErrorNotExtended(alloc, "x"), 510);
    assert_error(
        rt,
        alloc,
        ErrorNetworkAuthenticationRequired(alloc, "x"),
        511,
    );
}

#[test]
fn constructors_have_their_statuses(rt: HostRuntime) {
    assert_informing_and_redirecting(&rt, rt.alloc());
    assert_first_errors(&rt, rt.alloc());
    assert_last_errors(&rt, rt.alloc());
}

#[test]
fn helpers_have_their_statuses(rt: HostRuntime) {
    assert_first_helpers(&rt, rt.alloc());
    assert_last_helpers(&rt, rt.alloc());
}
