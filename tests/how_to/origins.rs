//! CORS: pages of one other origin may call the service.
use crate::compare::assert_same;
use crate::replies::replies;
use std::alloc::Global;
use web::header::{
    ACCESS_CONTROL_ALLOW_HEADERS, ACCESS_CONTROL_ALLOW_METHODS, ACCESS_CONTROL_ALLOW_ORIGIN,
    HeaderName, HeaderValue, VARY,
};
use web::reply::Done;
use web::{Error, Fail, HandlerService, Method, MethodIs, Route, SetHeader, Wrap};
use web_testing::TestRequest;

/// A header with a value that is known.
fn header(name: HeaderName, value: &'static str) -> SetHeader {
    SetHeader {
        name,
        value: HeaderValue::from_static(value),
    }
}

/// The reply to a preflight: 204, to which the headers are added.
fn allowed(_none: ()) -> Result<Done<Error>, Fail<Error>> {
    Ok(Done(Ok(())))
}

#[test]
fn pages_of_one_other_origin_are_allowed(rt: HostRuntime) {
    let alloc = rt.alloc();
    let echo = HandlerService::immediate(|text: String| -> Result<String, Fail<Error>> {
        Ok(text)
    });
    let preflight = Wrap::new(
        Wrap::new(
            HandlerService::immediate(|none| allowed(none)),
            header(ACCESS_CONTROL_ALLOW_METHODS, "GET, POST"),
        ),
        header(ACCESS_CONTROL_ALLOW_HEADERS, "content-type"),
    );
    let mut site = Wrap::new(
        Route::new(MethodIs(Method::OPTIONS), preflight, echo),
        header(ACCESS_CONTROL_ALLOW_ORIGIN, "https://app.example"),
    );
    let requests = vec![in alloc;
        TestRequest::new(alloc, Method::OPTIONS, "/echo").header("origin", "https://app.example"),
        TestRequest::post(alloc, "/echo").body(b"hello"),
        TestRequest::post(alloc, "/echo").body(b"\xff"),
    ];
    let requests = requests.expect(&rt, "memory");
    let names = &[
        "access-control-allow-origin",
        "access-control-allow-methods",
    ];
    let lines = replies(&rt, alloc, &mut site, requests, names);
    let expected = "\
        204 access-control-allow-origin: https://app.example; \
        access-control-allow-methods: GET, POST; \n\
        200 access-control-allow-origin: https://app.example; hello\n\
        400 access-control-allow-origin: https://app.example; Can not decode body\n";
    assert_same(&rt, lines.as_str(), expected);
}
