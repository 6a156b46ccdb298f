//! One worker that polls the exchanges in the order of the plan, over records that are used again.
use crate::arguments::Arguments;
use crate::request::Request;
use crate::response::Response;
use crate::script::{Exchange, Mark, Script};
use crate::text::{put_line, put_number};
use std::task::Poll;

/// What a request is held in. Its number tells how many were made before it.
struct Record {
    number: u64,
    request: Request,
}

/// The records that are kept to be used again.
pub struct Pool {
    capacity: usize,
    kept: Vec<Record>,
    pub made: u64,
}

impl Pool {
    pub fn new(capacity: usize) -> Pool {
        Pool {
            capacity,
            kept: Vec::with_capacity(capacity),
            made: 0,
        }
    }

    /// The record that was kept last, or a new one.
    fn take(&mut self, request: Request) -> Record {
        match self.kept.pop() {
            Some(mut record) => {
                record.fill(request);
                record
            }
            None => {
                let number = self.made;
                self.made += 1;
                Record { number, request }
            }
        }
    }

    fn give_back(&mut self, mut record: Record) {
        if self.kept.len() < self.capacity {
            record.clear();
            self.kept.push(record);
        }
    }
}

impl Record {
    /// Holds this request, in the room that its lists have.
    fn fill(&mut self, mut request: Request) {
        self.request.params.append(&mut request.params);
        self.request.layers.append(&mut request.layers);
        std::mem::swap(&mut request.params, &mut self.request.params);
        std::mem::swap(&mut request.layers, &mut self.request.layers);
        self.request = request;
    }

    /// Drops what the request holds, but for the room of its lists.
    fn clear(&mut self) {
        self.request.target = Default::default();
        self.request.headers = Default::default();
        self.request.params.clear();
        self.request.layers.clear();
    }
}

/// An exchange on its way.
enum Flight {
    /// No entry of the plan has named it. It is taken from here at its first poll.
    Waiting(Option<Exchange>),
    /// Its arguments are being made. The record is given back at the answer.
    Running(Option<Record>, Arguments),
    Answered(Response),
}

impl Flight {
    /// Polls what the exchange waits for.
    fn poll(&mut self, pool: &mut Pool) {
        if let Flight::Waiting(exchange) = self {
            let Some(Exchange { request, marks }) = exchange.take() else {
                return;
            };
            *self = Flight::start(pool.take(request), marks);
        }
        if let Flight::Running(record, arguments) = self
            && let Some(Record { request, .. }) = record
            && let Poll::Ready(answer) = arguments.poll(request)
        {
            if let Some(record) = record.take() {
                pool.give_back(record);
            }
            *self = Flight::Answered(answer.unwrap_or_else(Response::from));
        }
    }

    fn start(record: Record, marks: Vec<Mark>) -> Flight {
        let arguments = Arguments::of(&record.request, marks);
        Flight::Running(Some(record), arguments)
    }

    /// The response, where there is one. An exchange without gives its record back.
    fn end(self, pool: &mut Pool) -> Option<Response> {
        match self {
            Flight::Answered(response) => Some(response),
            Flight::Running(record, _) => {
                record.into_iter().for_each(|record| pool.give_back(record));
                None
            }
            Flight::Waiting(_) => None,
        }
    }
}

/// Polls one exchange until it is answered.
pub fn answer(exchange: Exchange, pool: &mut Pool) -> Response {
    let mut flight = Flight::Waiting(Some(exchange));
    loop {
        flight.poll(pool);
        if let Flight::Answered(response) = flight {
            return response;
        }
    }
}

/// Polls each exchange as often as the plan names it. The responses stand in the order of the
/// exchanges.
pub fn serve(script: Script, pool: &mut Pool) -> Vec<Option<Response>> {
    let waiting = |exchange| Flight::Waiting(Some(exchange));
    let mut flights: Vec<Flight> = script.exchanges.into_iter().map(waiting).collect();
    for entry in script.plan {
        if let Some(flight) = flights.get_mut(entry as usize) {
            flight.poll(pool);
        }
    }
    flights.into_iter().map(|flight| flight.end(pool)).collect()
}

/// The replies in the order of the exchanges, then the records that are kept, and how many were
/// made.
pub fn printed(replies: &[Option<Response>], pool: &Pool) -> Vec<u8> {
    let mut out = Vec::with_capacity(replies.len() * 80);
    for (number, reply) in replies.iter().enumerate() {
        put_line(&mut out, b"exchange ", number as u64);
        match reply {
            Some(response) => response.put(&mut out),
            None => out.extend_from_slice(b"unfinished\n"),
        }
    }
    out.extend_from_slice(b"pool");
    for record in &pool.kept {
        out.push(b' ');
        put_number(&mut out, record.number);
    }
    out.push(b'\n');
    put_line(&mut out, b"made ", pool.made);
    out
}
