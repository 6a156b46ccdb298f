//! What a service replies, as a text.
use std::alloc::Global;
use std::process::Abort;
use web::routing::{Service, Whole};
use web::{Exchange, NoData, PlainApp, serve_to_end};
use web_body::Marks;
use web_testing::{TestReply, TestRequest, test_worker};

/// An application without configuration or data of its own, whose bodies are in memory.
pub(crate) type Site = PlainApp<Marks>;

/// The status of a reply, these headers of it, and its text.
fn shown(rt: &impl Abort, alloc: Global, reply: &TestReply, headers: &[&str]) -> String {
    let mut line = format!(in alloc; "{}", reply.status().as_u16()).expect(rt, "memory");
    for name in headers {
        if let Some(value) = reply.header(*name) {
            write!(line, " {name}: {value};").expect(rt, "memory");
        }
    }
    write!(line, " {}", reply.text().unwrap_or("(no text)")).expect(rt, "memory");
    line
}

/// The replies of a service to these requests, one after the other, a line each.
pub(crate) fn replies<S: Service<Site, Whole>>(
    rt: &impl Abort,
    alloc: Global,
    service: &mut S,
    requests: Vec<TestRequest>,
    headers: &[&str],
) -> String {
    let mut worker = test_worker::<Site>(alloc, NoData).expect(rt, "memory");
    let mut lines = String::new(alloc);
    for request in requests {
        let exchange: Exchange<Site> = request.into_exchange().expect(rt, "a request");
        let outcome = serve_to_end(alloc, &mut worker, service, exchange, 8);
        let reply = TestReply::of(alloc, outcome).expect(rt, "a reply");
        let line = shown(rt, alloc, &reply, headers);
        writeln!(lines, "{line}").expect(rt, "memory");
    }
    lines
}
