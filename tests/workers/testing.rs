//! Requests that are made step by step, and replies as they are compared.
use crate::compare::assert_same;
use bytes::Bytes;
use example_handlers::{
    ApiKey, Counted, Echo, Logged, Page, Relay, RequestPath, Site, exchange_of, page_of, pages,
};
use http::Request;
use std::alloc::Global;
use std::process::Abort;
use web_body::{Mark, Marks, Payload};
use web_extract::{FromRequest, Ready};
use web_reply::Responder;
use web_request::{App, NoData, NoMemory, Text};
use web_testing::{TestReply, TestRequest, serve_request};
use web_worker::{Exchange, FnHandler, Handler};

#[test]
fn a_request_is_served(rt: HostRuntime) {
    let alloc = rt.alloc();
    let request = TestRequest::post(alloc, "/bytes")
        .header("X-Who", "Ada")
        .body(b"hello");
    let mut echo = Echo::new(alloc);
    let exchange = request.into_exchange::<Site>().expect(&rt, "a request");
    let outcome = serve_request(alloc, NoData, exchange, &mut echo).expect(&rt, "memory");
    let reply = TestReply::of(alloc, outcome).expect(&rt, "a reply");
    assert_same(
        &rt,
        (reply.status().as_u16(), reply.text()),
        (200, Some("hello")),
    );
}

/// What a handler replies to a request: the status, the media type and the text of the reply, or
/// why there is none.
fn reply_text<A: App, Args: FromRequest<A>, H: Handler<Args>>(
    rt: &impl Abort,
    alloc: Global,
    root: A::Layer,
    exchange: Exchange<A>,
    handler: &mut H,
) -> String
where
    H::Output: Responder<A>,
{
    let outcome = serve_request::<A, Args, H>(alloc, root, exchange, handler).expect(rt, "memory");
    let reply = match TestReply::of(alloc, outcome) {
        Ok(reply) => reply,
        Err(error) => return format!(in alloc; "{error}").expect(rt, "memory"),
    };
    let status = reply.status().as_u16();
    let media_type = reply.header("Content-Type").unwrap_or("-");
    let text = reply.text().unwrap_or("(no text)");
    format!(in alloc; "{status} {media_type} {text}").expect(rt, "memory")
}

/// A request whose body comes in two pieces, with a stall between.
fn exchange_in_pieces<A: App<Source = Marks>>(
    rt: &impl Abort,
    alloc: Global,
    request: TestRequest,
) -> Exchange<A> {
    let marks = vec![in alloc;
        Mark::Piece(Bytes::from_static(b"he")),
        Mark::Stall,
        Mark::Piece(Bytes::from_static(b"llo")),
    ];
    let mut exchange = request.into_exchange::<A>().expect(rt, "a request");
    exchange.body = Payload::Stream(Marks::new(marks.expect(rt, "memory")));
    exchange
}

/// A POST request for `/bytes` in pieces, by a handler.
fn reply_to_pieces<A: App<Source = Marks>, Args: FromRequest<A>, H: Handler<Args>>(
    rt: &impl Abort,
    alloc: Global,
    root: A::Layer,
    handler: &mut H,
) -> String
where
    H::Output: Responder<A>,
{
    let request = TestRequest::post(alloc, "/bytes").header("Content-Type", "text/x-hello");
    let exchange = exchange_in_pieces::<A>(rt, alloc, request);
    reply_text::<A, Args, H>(rt, alloc, root, exchange, handler)
}

#[test]
fn bodies_are_counted_and_handed_on(rt: HostRuntime) {
    let alloc = rt.alloc();
    let mut counting = FnHandler(|payload: Payload<Marks>| -> Result<Counted<Marks>, NoMemory> {
        Ok(Counted::new(payload))
    });
    let counted = reply_to_pieces::<Site, Payload<Marks>, _>(&rt, alloc, NoData, &mut counting);
    assert_same(
        &rt,
        counted.as_str(),
        "200 text/plain; charset=utf-8 5 bytes",
    );
    let relayed = reply_to_pieces::<Site, _, _>(&rt, alloc, NoData, &mut Relay);
    assert_same(&rt, relayed.as_str(), "200 text/x-hello hello");
}

#[test]
fn a_handler_is_wrapped(rt: HostRuntime) {
    let alloc = rt.alloc();
    let mut logged = Logged {
        inner: Echo::new(alloc),
        paths: Vec::new(alloc),
    };
    let reply = reply_to_pieces::<Site, (RequestPath, (Bytes, Option<Bytes>)), _>(
        &rt,
        alloc,
        NoData,
        &mut logged,
    );
    assert_same(&rt, reply.as_str(), "200 application/octet-stream hello");
    assert_same(
        &rt,
        logged.paths.first().map(|path| path.as_str()),
        Some("/bytes"),
    );
}

/// A name and a value of a header, and what a handler that asks for a key replies.
const KEYS: &[(&str, &str, &str)] = &[
    ("X-Api-Key", "k7", "200 text/plain; charset=utf-8 k7"),
    (
        "X-Key",
        "k7",
        "401 text/plain; charset=utf-8 a key is missing",
    ),
    (
        "X-Api-Key",
        "\u{e9}",
        "401 text/plain; charset=utf-8 a key is missing",
    ),
];

/// What a handler that asks for a key replies to a request with this header.
fn reply_to_key(rt: &impl Abort, alloc: Global, name: &str, value: &str) -> String {
    let mut handler = FnHandler(|key: ApiKey| -> Result<Ready<Text>, NoMemory> {
        Ok(Ready::new(key.0))
    });
    let request = TestRequest::get(alloc, "/").header(name, value);
    let exchange = request.into_exchange::<Site>().expect(rt, "a request");
    reply_text::<Site, ApiKey, _>(rt, alloc, NoData, exchange, &mut handler)
}

#[test]
fn an_argument_refuses(rt: HostRuntime) {
    for (name, value, expected) in KEYS {
        let found = reply_to_key(&rt, rt.alloc(), *name, *value);
        assert_same(&rt, found.as_str(), *expected);
    }
}

/// A target, a name and a value of a header, and why they make no request.
const REFUSED: &[(&str, &str, &str, &str)] = &[
    ("/a", "a", "b", "none"),
    ("/a b", "a", "b", "no request target"),
    ("/a", "a b", "c", "invalid header name"),
    ("/a", "a", "b\nc", "invalid header value"),
];

/// Why a request is refused, where it is.
fn refusal(rt: &impl Abort, alloc: Global, target: &str, name: &str, value: &str) -> String {
    let request = TestRequest::get(alloc, target)
        .header(name, value)
        .header("d", "e");
    match request.param("id", "7").body(b"f").into_exchange::<Site>() {
        Ok(_) => format!(in alloc; "none").expect(rt, "memory"),
        Err(error) => format!(in alloc; "{error}").expect(rt, "memory"),
    }
}

#[test]
fn the_first_refusal_is_kept(rt: HostRuntime) {
    for (target, name, value, expected) in REFUSED {
        let found = refusal(&rt, rt.alloc(), *target, *name, *value);
        assert_same(&rt, found.as_str(), *expected);
    }
}

/// A target, and its page with the first parameter.
const ROUTES: &[(&str, Option<Page>, &str)] = &[
    ("/bookings", Some(Page::Bookings), ""),
    ("/bookings/7?n=1", Some(Page::Booking), "id=7"),
    ("/bookings/7/8", None, ""),
];

/// The page of a request, and its first parameter.
fn route_of(rt: &impl Abort, alloc: Global, target: &str) -> (Option<Page>, String) {
    let router = pages(alloc).expect(rt, "routes");
    let request = TestRequest::get(alloc, target);
    let mut exchange = request.into_exchange::<Site>().expect(rt, "a request");
    let page = page_of(alloc, &router, &mut exchange).expect(rt, "memory");
    let text = match exchange.params.first() {
        Some(pair) => format!(in alloc; "{}={}", pair.name(), pair.value()),
        None => format!(in alloc; ""),
    };
    (page, text.expect(rt, "memory"))
}

#[test]
fn paths_have_pages(rt: HostRuntime) {
    for (target, page, param) in ROUTES {
        let (found, text) = route_of(&rt, rt.alloc(), *target);
        assert_same(&rt, found, *page);
        assert_same(&rt, text.as_str(), *param);
    }
}

#[test]
fn a_parsed_request_is_served(rt: HostRuntime) {
    let alloc = rt.alloc();
    let request = Request::new(alloc, Bytes::from_static(b"hello"));
    let exchange = exchange_of::<Site>(alloc, request, None);
    let found = reply_text(&rt, alloc, NoData, exchange, &mut Echo::new(alloc));
    assert_same(&rt, found.as_str(), "200 application/octet-stream hello");
}
