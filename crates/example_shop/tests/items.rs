//! Items as the handler answers them whose replies are promised.
use crate::item_handler::serve_items;
use crate::item_layer::{Catalogue, ItemErrors, ItemLayer};
use std::alloc::Global;
use std::process::Abort;
use web::testing::{TestReply, TestRequest, test_worker};

/// The status and the text of the reply to an item.
fn reply_text(rt: &impl Abort, alloc: Global, errors: ItemErrors, item: &str) -> String {
    let request = TestRequest::post(alloc, "/items")
        .header("content-type", "application/json")
        .body(item.as_bytes());
    let exchange = request.into_exchange::<Catalogue>().expect(rt, "a request");
    let exchanges = vec![in alloc; exchange].expect(rt, "memory");
    let layer = ItemLayer::new(200, errors);
    let mut worker = test_worker::<Catalogue>(alloc, layer).expect(rt, "memory");
    let served = serve_items(alloc, &mut worker, exchanges, &[0]);
    let mut outcomes = served.ok().expect(rt, "memory");
    let outcome = outcomes.pop().expect(rt, "an outcome");
    let reply = TestReply::of(alloc, outcome).expect(rt, "a reply");
    let text = reply.text().unwrap_or("(no text)");
    format!(in alloc; "{} {text}", reply.status().as_u16()).expect(rt, "memory")
}

/// What a refusal is answered with, the body of an item, and the reply to it.
const ROWS: &[(ItemErrors, &str, &str)] = &[
    (
        ItemErrors::BadRequest,
        "{\"name\":\"tea\",\"price\":{\"cents\":250,\"currency\":\"EUR\"}}",
        "200 {\"name\":\"tea\",\"note\":null,\
         \"price\":{\"cents\":250,\"currency\":\"EUR\"},\"tags\":[]}",
    ),
    (
        ItemErrors::BadRequest,
        "{\"name\":\"tea\"}",
        "400 {\"error\":\"Json deserialize error: price: missing\"}",
    ),
    (
        ItemErrors::UnprocessableContent,
        "{\"name\":\"tea\",\"price\":{\"cents\":0,\"currency\":\"EUR\"}}",
        "422 {\"error\":\"Json deserialize error: price: cents: not in 1..=1000000\"}",
    ),
    (
        ItemErrors::UnprocessableContent,
        "{\"name\":\"tea\"",
        "400 {\"error\":\"Json deserialize error: no JSON\"}",
    ),
];

#[test]
fn items_are_read_and_refused(rt: HostRuntime) {
    for (errors, item, expected) in ROWS {
        let found = reply_text(&rt, rt.alloc(), *errors, *item);
        assert_eq!(rt; found.as_str(), *expected);
    }
}
