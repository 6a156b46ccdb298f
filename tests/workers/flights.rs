//! Flights that are polled one by one, and in rounds.
use crate::compare::assert_same;
use crate::replies::write_outcome;
use crate::requests::worker;
use crate::workers::exchanges;
use bytes::Bytes;
use example_handlers::{Echo, Site, poll_rounds};
use std::alloc::Global;
use std::process::Abort;
use web_extract::FromRequest;
use web_reply::Responder;
use web_request::{App, NoData};
use web_worker::{Exchange, Flight, Handler, Service, Worker, poll_one};

/// A flight of each exchange.
fn flights<A: App, Args, H: Service<A, Args>>(
    rt: &impl Abort,
    alloc: Global,
    exchanges: Vec<Exchange<A>>,
) -> Vec<Flight<A, Args, H>> {
    let mut flights = Vec::new(alloc);
    for exchange in exchanges {
        flights.push(Flight::new(exchange)).expect(rt, "memory");
    }
    flights
}

/// Adds how many records the worker made, and the outcome that a flight shows.
fn write_flight<A: App, Args, H: Service<A, Args>>(
    rt: &impl Abort,
    lines: &mut String,
    made: u64,
    flight: Option<&Flight<A, Args, H>>,
) {
    write!(lines, "{made} made, ").expect(rt, "memory");
    match flight.and_then(|flight| flight.outcome()) {
        Some(outcome) => write_outcome(rt, lines, outcome),
        None => lines.push_str("open\n").expect(rt, "memory"),
    }
}

/// Polls one flight, and adds what is seen of it then.
fn poll<A: App, Args: FromRequest<A>, H: Handler<Args>>(
    rt: &impl Abort,
    alloc: Global,
    worker: &mut Worker<A>,
    handler: &mut H,
    flights: &mut [Flight<A, Args, H>],
    place: usize,
    lines: &mut String,
)
where
    H::Output: Responder<A>,
{
    assert!(rt; worker.pool().made() < 9);
    poll_one(alloc, worker, handler, flights, place);
    write_flight(rt, lines, worker.pool().made(), flights.get(place));
}

/// Polls flights by these numbers, one after the other, and then takes the outcome of the last.
fn polled<A: App, Args: FromRequest<A>, H: Handler<Args> + Drop>(
    rt: &impl Abort,
    alloc: Global,
    mut worker: Worker<A>,
    mut handler: H,
    exchanges: Vec<Exchange<A>>,
    places: &[usize],
) -> String
where
    H::Output: Responder<A>,
{
    let mut lines = String::new(alloc);
    let mut flights = flights::<A, Args, H>(rt, alloc, exchanges);
    for place in places {
        poll(
            rt,
            alloc,
            &mut worker,
            &mut handler,
            &mut flights,
            *place,
            &mut lines,
        );
    }
    let last = flights.pop().expect(rt, "a flight");
    write_outcome(rt, &mut lines, &last.into_outcome());
    lines
}

/// The arguments of the handler that keeps its calls.
type EchoArguments = (Bytes, Option<Bytes>);

/// Each first poll makes one record, and a flight shows its outcome once it is answered.
#[test]
fn flights_are_polled_one_by_one(rt: HostRuntime) {
    let alloc = rt.alloc();
    let found = polled::<Site, EchoArguments, Echo>(
        &rt,
        alloc,
        worker::<Site>(&rt, alloc, NoData),
        Echo::new(alloc),
        exchanges::<Site>(&rt, alloc),
        &[1, 0, 1, 0, 9, 1, 3],
    );
    let expected = "1 made, open\n2 made, open\n2 made, 400 payload read failed\n\
                    2 made, 200 hello\n2 made, open\n2 made, 400 payload read failed\n\
                    3 made, open\nunfinished\n";
    assert_same(&rt, found.as_str(), expected);
}

/// Polls flights for one round, and then until all are answered, and takes the outcome of the last.
fn polled_in_rounds<A: App, Args: FromRequest<A>, H: Handler<Args> + Drop>(
    rt: &impl Abort,
    alloc: Global,
    mut worker: Worker<A>,
    mut handler: H,
    exchanges: Vec<Exchange<A>>,
) -> String
where
    H::Output: Responder<A>,
{
    let mut flights = flights::<A, Args, H>(rt, alloc, exchanges);
    let once = poll_rounds(alloc, &mut worker, &mut handler, &mut flights, 1);
    let all = poll_rounds(alloc, &mut worker, &mut handler, &mut flights, 5);
    let made = worker.pool().made();
    let mut lines = format!(in alloc; "{once} and {all} answered, {made} made, ").expect(
        rt, "memory",
    );
    let last = flights.pop().expect(rt, "a flight");
    write_outcome(rt, &mut lines, &last.into_outcome());
    lines
}

#[test]
fn flights_are_polled_in_rounds(rt: HostRuntime) {
    let alloc = rt.alloc();
    let found = polled_in_rounds::<Site, EchoArguments, Echo>(
        &rt,
        alloc,
        worker::<Site>(&rt, alloc, NoData),
        Echo::new(alloc),
        exchanges::<Site>(&rt, alloc),
    );
    assert_same(&rt, found.as_str(), "1 and 4 answered, 4 made, 200 hello\n");
}
