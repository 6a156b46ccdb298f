//! Exchanges that wait for their bodies, over a service.
use crate::compare::assert_same;
use crate::replies::reply;
use bytes::Bytes;
use std::alloc::Global;
use std::process::Abort;
use web_body::{Mark, Marks, Payload};
use web_reply::Error;
use web_request::{NoData, PlainApp};
use web_routing::HandlerService;
use web_testing::TestRequest;
use web_texts::Fail;
use web_worker::Exchange;

type Site = PlainApp<Marks>;

/// A request whose body comes in two pieces, with a stall between.
fn in_pieces(rt: &impl Abort, alloc: Global) -> Exchange<Site> {
    let marks = vec![in alloc;
        Mark::Piece(Bytes::from_static(b"he")),
        Mark::Stall,
        Mark::Piece(Bytes::from_static(b"llo")),
    ];
    let request = TestRequest::post(alloc, "/");
    let mut exchange = request.into_exchange::<Site>().expect(rt, "a request");
    exchange.body = Payload::Stream(Marks::new(marks.expect(rt, "memory")));
    exchange
}

fn echo(text: String) -> Result<String, Fail<Error>> {
    Ok(text)
}

/// How many polls there are at most, and what comes of the exchange.
const POLLS: &[(usize, &str)] = &[
    (0, "no response after 64 polls"),
    (1, "no response after 64 polls"),
    (2, "200 - hello"),
    (9, "200 - hello"),
];

#[test]
fn an_exchange_is_polled_until_its_reply_is_there(rt: HostRuntime) {
    let alloc = rt.alloc();
    for (polls, expected) in POLLS {
        let mut service = HandlerService::immediate(|text| echo(text));
        let exchange = in_pieces(&rt, alloc);
        let text = reply::<Site, _>(&rt, alloc, NoData, &mut service, exchange, *polls);
        assert_same(&rt, text.as_str(), *expected);
    }
}
