//! Workers that serve exchanges by a plan, with each handler of the examples.
use crate::compare::assert_same;
use crate::replies::{lines, lines_of, text_of};
use crate::requests::{exchange, failing, head, hello, worker};
use bytes::Bytes;
use example_handlers::{Echo, Site, serve_echo, serve_greeting, serve_hello};
use std::alloc::Global;
use std::process::Abort;
use web_body::{Marks, Payload};
use web_extract::Configs;
use web_request::{App, NoData};
use web_worker::{Exchange, Worker};

/// `hello` with a stall, `ab` with a stall and a fault, a whole body, and `hello` once more.
pub(crate) fn exchanges<A: App<Source = Marks>>(
    rt: &impl Abort,
    alloc: Global,
) -> Vec<Exchange<A>> {
    let bodies = [
        hello(rt, alloc),
        failing(rt, alloc),
        Payload::Whole(Bytes::from_static(b"whole")),
        hello(rt, alloc),
    ];
    let mut exchanges = Vec::new(alloc);
    for body in bodies {
        let head = head(rt, alloc, "/bytes");
        let exchange = exchange(alloc, head, Vec::new(alloc), body);
        exchanges.push(exchange).expect(rt, "memory");
    }
    assert!(rt; exchanges.len() < 9);
    exchanges
}

/// The plan that the exchanges are served by. No exchange has the number 9.
const PLAN: &[usize] = &[0, 3, 1, 2, 9, 1, 0, 0];

/// Adds how many records a worker made, and how many of them it keeps.
fn write_records<A: App>(rt: &impl Abort, lines: &mut String, worker: &Worker<A>) {
    let made = worker.pool().made();
    let kept = worker.pool().serials().len();
    writeln!(lines, "{made} records, {kept} kept").expect(rt, "memory");
}

/// Adds the calls of the handler that keeps them.
fn write_calls(rt: &impl Abort, lines: &mut String, echo: &Echo) {
    for (body, rest) in echo.calls() {
        let body = text_of(body.as_slice());
        let is_all = rest.as_ref().is_some_and(|rest| rest.is_empty());
        writeln!(lines, "{body} {is_all}").expect(rt, "memory");
    }
}

/// Serves the exchanges by the handler that keeps its calls: the replies, the records, the calls.
fn served_by_echo<A: App<Source = Marks>>(rt: &impl Abort, alloc: Global, root: A::Layer) -> String
where
    A::Layer: Configs,
{
    let mut echo = Echo::new(alloc);
    let mut worker = worker::<A>(rt, alloc, root);
    let exchanges = exchanges::<A>(rt, alloc);
    let outcomes = serve_echo(alloc, &mut worker, exchanges, PLAN, &mut echo);
    let mut lines = lines_of(rt, alloc, outcomes);
    write_records(rt, &mut lines, &worker);
    write_calls(rt, &mut lines, &echo);
    lines
}

/// Serves the exchanges by the handler whose future stalls once.
fn served_by_greeter<A: App<Source = Marks>>(
    rt: &impl Abort,
    alloc: Global,
    root: A::Layer,
) -> String {
    let mut worker = worker::<A>(rt, alloc, root);
    let exchanges = exchanges::<A>(rt, alloc);
    lines_of(
        rt,
        alloc,
        serve_greeting(alloc, &mut worker, exchanges, PLAN),
    )
}

#[test]
fn a_handler_keeps_its_calls_in_the_order_of_the_plan(rt: HostRuntime) {
    let found = served_by_echo::<Site>(&rt, rt.alloc(), NoData);
    let expected = "200 hello\n400 payload read failed\n200 whole\nunfinished\n\
                    4 records, 0 kept\nwhole true\nhello true\n";
    assert_same(&rt, found.as_str(), expected);
}

#[test]
fn a_future_may_stall(rt: HostRuntime) {
    let found = served_by_greeter::<Site>(&rt, rt.alloc(), NoData);
    assert_same(
        &rt,
        found.as_str(),
        "200 hello\n200 hello\nunfinished\nunfinished\n",
    );
}

#[test]
fn the_first_example_says_hello(rt: HostRuntime) {
    let head = head(&rt, rt.alloc(), "/");
    let outcomes = serve_hello(rt.alloc(), head).expect(&rt, "memory");
    assert_same(
        &rt,
        lines(&rt, rt.alloc(), outcomes).as_str(),
        "200 hello\n",
    );
}
