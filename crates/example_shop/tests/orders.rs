//! Orders as the shop's handler takes them.
use crate::handler::take_order;
use crate::layer::{Shop, ShopLayer};
use std::alloc::Global;
use std::process::Abort;
use web::replied;
use web::routing::Immediate;
use web::testing::{TestReply, TestRequest, serve_request};

/// The status and the text of the reply to an order.
fn reply_text(rt: &impl Abort, alloc: Global, target: &str, item: &str) -> String {
    let mut orders = Immediate(|order| replied(alloc, take_order(alloc, order)));
    let request = TestRequest::post(alloc, target)
        .header("content-type", "application/json")
        .header("accept-language", "de")
        .body(item.as_bytes());
    let exchange = request.into_exchange::<Shop>().expect(rt, "a request");
    let outcome = serve_request(alloc, ShopLayer::new(200), exchange, &mut orders);
    let reply = TestReply::of(alloc, outcome.expect(rt, "memory")).expect(rt, "a reply");
    let text = reply.text().unwrap_or("(no text)");
    format!(in alloc; "{} {text}", reply.status().as_u16()).expect(rt, "memory")
}

const TEA: &str = "{\"name\":\"tea\",\"price\":{\"cents\":250,\"currency\":\"EUR\"}}";

/// The target and the item of an order, and the reply to it.
const ROWS: &[(&str, &str, &str)] = &[
    (
        "/orders",
        TEA,
        "201 {\"name\":\"tea\",\"note\":null,\
         \"price\":{\"cents\":250,\"currency\":\"EUR\"},\"tags\":[]}",
    ),
    ("/orders?count=0", TEA, "422 order at least one"),
    ("/orders?count=11", TEA, "409 only 10 left"),
    (
        "/orders?count=x",
        TEA,
        "400 Query deserialize error: count: no whole number from 0 to 18446744073709551615",
    ),
    (
        "/orders",
        "{\"name\":\"tea\"}",
        "422 the shop cannot read this: Json deserialize error: price: missing",
    ),
    (
        "/orders",
        "{\"name\":\"tea\",\"price\":{\"cents\":0,\"currency\":\"EUR\"}}",
        "422 the shop cannot read this: Json deserialize error: price: cents: not in 1..=1000000",
    ),
];

#[test]
fn orders_are_taken_and_refused(rt: HostRuntime) {
    for (target, item, expected) in ROWS {
        let found = reply_text(&rt, rt.alloc(), *target, *item);
        assert_eq!(rt; found.as_str(), *expected);
    }
}
