//! What a service replies, as texts.
use std::alloc::Global;
use std::process::Abort;
use web_request::App;
use web_routing::{Service, Whole, serve_to_end};
use web_testing::{TestReply, TestRequest, test_worker};
use web_worker::{Exchange, Outcome};

/// The status of a reply, the header that some services set, and the text; or why there is none.
pub(crate) fn shown<A: App>(rt: &impl Abort, alloc: Global, outcome: Outcome<A>) -> String {
    let reply = match TestReply::of(alloc, outcome) {
        Ok(reply) => reply,
        Err(error) => return format!(in alloc; "{error}").expect(rt, "memory"),
    };
    let status = reply.status().as_u16();
    let frame = reply.header("X-Frame-Options").unwrap_or("-");
    let text = reply.text().unwrap_or("(no text)");
    format!(in alloc; "{status} {frame} {text}").expect(rt, "memory")
}

/// What a service replies to an exchange after so many polls at most.
pub(crate) fn reply<A: App, S: Service<A, Whole>>(
    rt: &impl Abort,
    alloc: Global,
    root: A::Layer,
    service: &mut S,
    exchange: Exchange<A>,
    polls: usize,
) -> String {
    let mut worker = test_worker::<A>(alloc, root).expect(rt, "memory");
    let outcome = serve_to_end(alloc, &mut worker, service, exchange, polls);
    shown(rt, alloc, outcome)
}

/// What a service replies to each of these requests, one after the other, in lines.
pub(crate) fn replies<A: App, S: Service<A, Whole>>(
    rt: &impl Abort,
    alloc: Global,
    root: A::Layer,
    service: &mut S,
    requests: Vec<TestRequest>,
) -> String {
    let mut worker = test_worker::<A>(alloc, root).expect(rt, "memory");
    let mut lines = String::new(alloc);
    for request in requests {
        let exchange = request.into_exchange::<A>().expect(rt, "a request");
        let outcome = serve_to_end(alloc, &mut worker, service, exchange, 8);
        let line = shown(rt, alloc, outcome);
        writeln!(lines, "{line}").expect(rt, "memory");
    }
    lines
}
