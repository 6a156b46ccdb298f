//! Orders as JSON, whose errors are JSON too.
use crate::compare::assert_same;
use crate::replies::{Site, replies};
use serde::{Deserialize, Serialize};
use std::alloc::Global;
use web::status::ErrorConflict;
use web::{Error, ErrorsAsJson, Fail, HandlerService, Json, Path, Typed, Wrap};
use web_testing::TestRequest;

/// What is ordered.
#[derive(Debug, Drop, Deserialize, Serialize)]
struct Order {
    item: String,
    count: u64,
}

/// Takes an order of a shop's customer, and responds with it.
fn take(
    alloc: Global,
    args: (Path<u64>, Json<Typed<Order>>),
) -> Result<Json<Typed<Order>>, Fail<Error>> {
    let (customer, Json(order)) = args;
    if order.0.count == 0 {
        let text = format!(in alloc; "customer {}: order at least one", customer.into_inner())?;
        return Err(Fail::Of(ErrorConflict(alloc, text)?));
    }
    Ok(Json(order))
}

/// An order for the customer 7.
fn new_order(alloc: Global, body: &'static [u8]) -> TestRequest {
    TestRequest::post(alloc, "/customers/7/orders")
        .param("customer", "7")
        .header("content-type", "application/json")
        .body(body)
}

#[test]
fn orders_and_errors_are_json(rt: HostRuntime) {
    let alloc = rt.alloc();
    let mut shop = Wrap::new(
        HandlerService::immediate(|args| take(alloc, args)),
        ErrorsAsJson,
    );
    let requests = vec![in alloc;
        new_order(alloc, b"{\"item\":\"tea\",\"count\":2}"),
        new_order(alloc, b"{\"item\":\"tea\",\"count\":0}"),
        new_order(alloc, b"{\"item\":\"tea\"}"),
        new_order(alloc, b"tea"),
    ];
    let requests = requests.expect(&rt, "memory");
    let lines = replies(&rt, alloc, &mut shop, requests, &["content-type"]);
    let expected = "\
        200 content-type: application/json; {\"count\":2,\"item\":\"tea\"}\n\
        409 content-type: application/json; {\"error\":\"customer 7: order at least one\"}\n\
        400 content-type: application/json; \
        {\"error\":\"Json deserialize error: missing field `count` at line 1 column 14\"}\n\
        400 content-type: application/json; {\"error\":\"Json deserialize error: no JSON\"}\n";
    assert_same(&rt, lines.as_str(), expected);
}
