//! Routes to handlers with arguments of their own, over one worker.
use crate::compare::assert_same;
use crate::replies::{replies, reply};
use http::{Method, StatusCode};
use http_header::{ALLOW, HeaderName, HeaderValue};
use std::alloc::Global;
use web_body::Marks;
use web_extract_head::Path;
use web_reply::Error;
use web_request::{NoData, PlainApp};
use web_routing::{
    Any, Both, HandlerService, MethodIs, PathBelow, PathIs, Route, SetHeader, Wrap, serve_to_end,
};
use web_testing::{TestReply, TestRequest, test_worker};
use web_texts::{Fail, Text};

type Site = PlainApp<Marks>;

fn frame_header() -> SetHeader {
    SetHeader {
        name: HeaderName::from_static("x-frame-options"),
        value: HeaderValue::from_static("DENY"),
    }
}

/// What is sent, with the name in the path before it.
fn named(alloc: Global, args: (Path<Text>, String)) -> Result<String, Fail<Error>> {
    let (name, text) = args;
    Ok(format!(in alloc; "{}: {text}", name.into_inner().as_str())?)
}

/// An empty reply with the status 404.
fn nothing(_none: ()) -> Result<Option<String>, Fail<Error>> {
    Ok(None)
}

#[test]
fn three_routes_have_arguments_of_their_own(rt: HostRuntime) {
    let alloc = rt.alloc();
    let routes = Route::new(
        PathIs("/echo"),
        HandlerService::immediate(|text: String| -> Result<String, Fail<Error>> { Ok(text) }),
        Route::new(
            PathIs("/names/ada"),
            HandlerService::immediate(|args| named(alloc, args)),
            HandlerService::immediate(|none| nothing(none)),
        ),
    );
    let mut site = Wrap::new(routes, frame_header());
    let requests = vec![in alloc;
        TestRequest::post(alloc, "/echo").body(b"hello"),
        TestRequest::post(alloc, "/echo").body(b"\xff"),
        TestRequest::post(alloc, "/names/ada")
            .param("name", "ada")
            .body(b"hello"),
        TestRequest::post(alloc, "/names/ada").body(b"hello"),
        TestRequest::get(alloc, "/nowhere"),
    ];
    let lines = replies::<Site, _>(
        &rt,
        alloc,
        NoData,
        &mut site,
        requests.expect(&rt, "memory"),
    );
    let expected = "\
        200 DENY hello\n\
        400 DENY Can not decode body\n\
        200 DENY ada: hello\n\
        404 DENY not one value\n\
        404 DENY \n";
    assert_same(&rt, lines.as_str(), expected);
}

/// A text.
fn shown_text(alloc: Global) -> Result<Text, Fail<Error>> {
    Ok(Text::of(alloc, "shown")?)
}

#[test]
fn one_path_has_a_route_for_each_method(rt: HostRuntime) {
    let alloc = rt.alloc();
    let mut site = Route::new(
        Both(PathIs("/page"), MethodIs(Method::GET)),
        HandlerService::immediate(|_none: ()| shown_text(alloc)),
        Route::new(
            Both(PathIs("/page"), MethodIs(Method::POST)),
            HandlerService::immediate(|text: String| -> Result<String, Fail<Error>> { Ok(text) }),
            HandlerService::immediate(|none| nothing(none)),
        ),
    );
    let requests = vec![in alloc;
        TestRequest::get(alloc, "/page"),
        TestRequest::post(alloc, "/page").body(b"taken"),
        TestRequest::new(alloc, Method::PUT, "/page").body(b"lost"),
    ];
    let lines = replies::<Site, _>(
        &rt,
        alloc,
        NoData,
        &mut site,
        requests.expect(&rt, "memory"),
    );
    assert_same(&rt, lines.as_str(), "200 - shown\n200 - taken\n404 - \n");
}

/// That the method is not one of the page.
fn not_allowed(_none: ()) -> Result<(Option<String>, StatusCode), Fail<Error>> {
    Ok((None, StatusCode::METHOD_NOT_ALLOWED))
}

/// A path, and what is replied where those below `/api` are shown something.
const BELOW: &[(&str, &str)] = &[
    ("/api", "200 - shown"),
    ("/api/items", "200 - shown"),
    ("/apis", "404 - "),
    ("/ap", "404 - "),
    ("/", "404 - "),
];

#[test]
fn a_prefix_takes_what_stands_below_it(rt: HostRuntime) {
    let alloc = rt.alloc();
    for (path, expected) in BELOW {
        let mut site = Route::new(
            PathBelow("/api"),
            HandlerService::immediate(|_none: ()| shown_text(alloc)),
            HandlerService::immediate(|none| nothing(none)),
        );
        let request = TestRequest::get(alloc, path);
        let exchange = request.into_exchange::<Site>().expect(&rt, "a request");
        let line = reply::<Site, _>(&rt, alloc, NoData, &mut site, exchange, 1);
        assert_same(&rt, line.as_str(), *expected);
    }
}

#[test]
fn another_method_is_refused_with_those_that_are_allowed(rt: HostRuntime) {
    let alloc = rt.alloc();
    let allow = SetHeader {
        name: ALLOW,
        value: HeaderValue::from_static("GET, HEAD"),
    };
    let mut page = Route::new(
        Any(MethodIs(Method::GET), MethodIs(Method::HEAD)),
        HandlerService::immediate(|_none: ()| shown_text(alloc)),
        Wrap::new(HandlerService::immediate(|none| not_allowed(none)), allow),
    );
    let mut worker = test_worker::<Site>(alloc, NoData).expect(&rt, "memory");
    let request = TestRequest::post(alloc, "/page");
    let exchange = request.into_exchange::<Site>().expect(&rt, "a request");
    let outcome = serve_to_end(alloc, &mut worker, &mut page, exchange, 1);
    let refused = TestReply::of(alloc, outcome).expect(&rt, "a reply");
    let status = refused.status().as_u16();
    assert_same(
        &rt,
        (status, refused.header("Allow")),
        (405, Some("GET, HEAD")),
    );
    let request = TestRequest::new(alloc, Method::HEAD, "/page");
    let exchange = request.into_exchange::<Site>().expect(&rt, "a request");
    let line = reply::<Site, _>(&rt, alloc, NoData, &mut page, exchange, 1);
    assert_same(&rt, line.as_str(), "200 - shown");
}
