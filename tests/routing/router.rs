//! A router of many routes, by itself and over a connection.
use crate::compare::assert_same;
use crate::replies::replies;
use http::Method;
use std::alloc::Global;
use std::process::Abort;
use web_body::Marks;
use web_extract_head::Path;
use web_http1::{Connection, Ended};
use web_messages::Limits;
use web_reply::Error;
use web_request::{NoData, PlainApp};
use web_routing::{HandlerService, MethodPattern, Router, Service, Whole, serve_to_end};
use web_testing::{TestReply, TestRequest, test_worker};
use web_texts::{Fail, Text};

type Site = PlainApp<Marks>;

fn all(alloc: Global) -> Result<Text, Fail<Error>> {
    Ok(Text::of(alloc, "all items")?)
}

fn one(alloc: Global, id: Path<u32>) -> Result<String, Fail<Error>> {
    Ok(format!(in alloc; "item {}", id.into_inner())?)
}

fn said(alloc: Global, args: (Path<Text>, String)) -> Result<String, Fail<Error>> {
    let (id, text) = args;
    Ok(format!(in alloc; "{}: {text}", id.into_inner().as_str())?)
}

fn nothing(_none: ()) -> Result<Option<String>, Fail<Error>> {
    Ok(None)
}

/// The site: all items, one item, and what is said of one.
fn site(rt: &impl Abort, alloc: Global) -> impl Service<Site, Whole> {
    let routes = (
        MethodPattern::new(Method::GET, "/items").to(move |_none: ()| all(alloc)),
        (
            MethodPattern::new(Method::GET, "/items/{id}").to(move |id| one(alloc, id)),
            MethodPattern::new(Method::POST, "/items/{id}").to(move |args| said(alloc, args)),
        ),
    );
    let others = HandlerService::immediate(|none| nothing(none));
    Router::new(alloc, routes, others)
        .ok()
        .expect(rt, "the routes")
}

/// What is printed of the route that is refused, where each has the methods and patterns of these.
fn refusal(alloc: Global, first: (Method, &'static str), second: (Method, &'static str)) -> String {
    let routes = (
        MethodPattern::new(first.0, first.1).to(|none| nothing(none)),
        MethodPattern::new(second.0, second.1).to(|none| nothing(none)),
    );
    let others = HandlerService::<(), _>::immediate(|none| nothing(none));
    match Router::new(alloc, routes, others) {
        Ok(_) => String::new(alloc),
        Err(error) => format!(in alloc; "{error}").unwrap_or(String::new(alloc)),
    }
}

#[test]
fn a_route_that_is_refused_is_named(rt: HostRuntime) {
    let alloc = rt.alloc();
    let items = || (Method::GET, "/items/{id}");
    for (second, expected) in [
        (
            items(),
            "/items/{id}: The pattern has a route of this method already",
        ),
        ((Method::PUT, "/items/{id}"), ""),
        (
            (Method::GET, "/items/{name}"),
            "/items/{name}: Insertion failed due to conflict with previously registered route: \
             /items/{id}",
        ),
        (
            (Method::GET, "/caf\u{e9}"),
            "/caf\u{e9}: The pattern has bytes that are not ASCII",
        ),
        (
            (Method::GET, "/{id"),
            "/{id: Parameters must be registered with a valid name",
        ),
    ] {
        assert_same(&rt, refusal(alloc, items(), second).as_str(), expected);
    }
}

#[test]
fn a_route_is_found_by_its_pattern_and_its_method(rt: HostRuntime) {
    let alloc = rt.alloc();
    let requests = vec![in alloc;
        TestRequest::get(alloc, "/items"),
        TestRequest::get(alloc, "/items/7"),
        TestRequest::get(alloc, "/items/seven"),
        TestRequest::post(alloc, "/items/a%20b").body(b"new"),
        TestRequest::new(alloc, Method::HEAD, "/items/7"),
        TestRequest::new(alloc, Method::PUT, "/items/7"),
        TestRequest::new(alloc, Method::OPTIONS, "/items"),
        TestRequest::get(alloc, "/item"),
        TestRequest::get(alloc, "/items/7/parts"),
    ];
    let mut site = site(&rt, alloc);
    let lines = replies::<Site, _>(
        &rt,
        alloc,
        NoData,
        &mut site,
        requests.expect(&rt, "memory"),
    );
    let expected = "\
        200 - all items\n\
        200 - item 7\n\
        404 - id: no whole number from 0 to 4294967295\n\
        200 - a b: new\n\
        200 - item 7\n\
        405 - \n\
        204 - \n\
        404 - \n\
        404 - \n";
    assert_same(&rt, lines.as_str(), expected);
}

#[test]
fn the_methods_of_a_path_are_listed(rt: HostRuntime) {
    let alloc = rt.alloc();
    let mut worker = test_worker::<Site>(alloc, NoData).expect(&rt, "memory");
    let mut site = site(&rt, alloc);
    for (target, expected) in [
        ("/items", "GET, HEAD, OPTIONS"),
        ("/items/7", "GET, POST, HEAD, OPTIONS"),
    ] {
        let request = TestRequest::new(alloc, Method::DELETE, target);
        let exchange = request.into_exchange::<Site>().expect(&rt, "a request");
        let outcome = serve_to_end(alloc, &mut worker, &mut site, exchange, 1);
        let reply = TestReply::of(alloc, outcome).expect(&rt, "a reply");
        assert_same(&rt, reply.header("Allow"), Some(expected));
    }
}

#[test]
fn three_lists_of_extractors_are_served_over_one_connection(rt: HostRuntime) {
    let alloc = rt.alloc();
    let mut worker = test_worker::<Site>(alloc, NoData).expect(&rt, "memory");
    let mut site = site(&rt, alloc);
    let mut connection = Connection::new(alloc, Limits::default());
    let mut out = Vec::new(alloc);
    let bytes = b"GET /items HTTP/1.1\r\nhost: a\r\n\r\n\
        GET /items/7 HTTP/1.1\r\nhost: a\r\n\r\n\
        POST /items/ada HTTP/1.1\r\nhost: a\r\ncontent-length: 5\r\n\r\nhello";
    connection.feed(alloc, bytes).expect(&rt, "memory");
    connection.answer(alloc, &mut worker, &mut site, &mut out);
    let ended = connection.finish(alloc, &mut out);
    assert_same(&rt, ended, Ended::Closed);
    let text = str::from_utf8(out.as_slice()).ok().expect(&rt, "a text");
    for part in ["all items", "item 7", "ada: hello"] {
        assert!(rt; text.contains(part));
    }
}
