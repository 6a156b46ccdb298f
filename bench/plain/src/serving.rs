//! One worker that polls the exchanges in the order of the plan.
use crate::arguments::{Arguments, Data, Picked, Side};
use crate::item::Item;
use crate::parts;
use crate::reply::{Body, Refusal, Reply};
use crate::request::Request;
use crate::script::{Mark, Script};
use crate::text::put_number;

/// An exchange on its way.
pub struct Flight<'a> {
    /// Arguments and handlers may read it until the answer.
    request: Request<'a>,
    /// The number of the record that it holds.
    record: Option<u64>,
    pub stage: Stage<'a>,
}

/// The numbers of the records that are kept to be used again.
pub struct Pool {
    capacity: usize,
    pub kept: Vec<u64>,
    pub made: u64,
}

impl Pool {
    pub fn new(capacity: usize) -> Pool {
        Pool {
            capacity,
            kept: Vec::with_capacity(capacity),
            made: 0,
        }
    }

    /// The record that was kept last, or a new one.
    fn take(&mut self) -> u64 {
        self.kept.pop().unwrap_or_else(|| {
            self.made += 1;
            self.made - 1
        })
    }

    fn give_back(&mut self, record: u64) {
        if self.kept.len() < self.capacity {
            self.kept.push(record);
        }
    }
}

pub enum Stage<'a> {
    /// No entry of the plan has named it.
    Waiting(Vec<Mark<'a>>),
    /// Its arguments are being made.
    Extracting(Arguments<'a>),
    /// Its handler answers after so many more polls.
    Handling(u64, Reply<'a>),
    Answered(Reply<'a>),
}

/// Polls each exchange as often as the plan names it. Then the exchanges without an answer give their records back.
pub fn serve<'a>(script: Script<'a>, pool: &mut Pool) -> Vec<Flight<'a>> {
    let mut flights: Vec<Flight> = script
        .exchanges
        .into_iter()
        .map(|exchange| Flight {
            request: exchange.request,
            record: None,
            stage: Stage::Waiting(exchange.marks),
        })
        .collect();
    for entry in script.plan {
        if let Some(flight) = flights.get_mut(entry as usize) {
            flight.poll(pool);
        }
    }
    for record in flights.iter_mut().filter_map(|flight| flight.record.take()) {
        pool.give_back(record);
    }
    flights
}

/// Polls one exchange until it is answered.
pub fn answer<'a>(request: Request<'a>, marks: Vec<Mark<'a>>, pool: &mut Pool) -> Reply<'a> {
    let mut flight = Flight {
        request,
        record: None,
        stage: Stage::Waiting(marks),
    };
    loop {
        flight.poll(pool);
        if let Stage::Answered(reply) = flight.stage {
            return reply;
        }
    }
}

impl<'a> Flight<'a> {
    /// Polls what the exchange waits for.
    fn poll(&mut self, pool: &mut Pool) {
        match &mut self.stage {
            Stage::Waiting(marks) => {
                self.record = Some(pool.take());
                let mut arguments = Arguments::of(&self.request, std::mem::take(marks));
                self.stage = match arguments.poll(&self.request) {
                    None => Stage::Extracting(arguments),
                    Some(picked) => picked.map_or_else(refuse, handle),
                };
            }
            Stage::Extracting(arguments) => {
                if let Some(picked) = arguments.poll(&self.request) {
                    self.stage = picked.map_or_else(refuse, handle);
                }
            }
            Stage::Handling(left, reply) => {
                if *left > 0 {
                    *left -= 1;
                } else {
                    let reply = std::mem::replace(reply, Reply::empty(200));
                    self.stage = Stage::Answered(reply);
                }
            }
            Stage::Answered(_) => return,
        }
        if matches!(self.stage, Stage::Answered(_))
            && let Some(record) = self.record.take()
        {
            pool.give_back(record);
        }
    }
}

fn refuse<'a>(refusal: Refusal) -> Stage<'a> {
    Stage::Answered(Reply::from(refusal))
}

/// What a handler does in its first poll: it answers, or tells after how many more polls it will.
fn handle(picked: Picked<'_>) -> Stage<'_> {
    match picked {
        Picked::Wait(delay) if delay > 0 => Stage::Handling(delay - 1, Reply::empty(204)),
        picked => Stage::Answered(reply_of(picked)),
    }
}

fn reply_of(picked: Picked<'_>) -> Reply<'_> {
    let text = |text: Vec<u8>| Reply::text(200, text.into());
    match picked {
        Picked::Bytes(body) => Reply::typed(200, "application/octet-stream", Body::Whole(body)),
        Picked::Text(text) => Reply::text(200, text),
        Picked::Json(item) => typed(item.json(), "application/json"),
        Picked::Form(item) => typed(item.form(), "application/x-www-form-urlencoded"),
        Picked::Either(Side::Left, item) => text(item.line("left ")),
        Picked::Either(Side::Right, item) => text(item.line("right ")),
        Picked::Option(item, length) => text(option_line(item, length)),
        Picked::Result(Ok(item)) => text(item.line("ok ")),
        Picked::Result(Err(status)) => text(line("refused", [Some(u64::from(status))])),
        Picked::Pairs(item) => text(item.line("")),
        Picked::Accept(accept) => text(accept.text()),
        Picked::Connection(connection) => text(connection.text()),
        Picked::Data(data) => text(data_line(&data)),
        Picked::Raw(marks) => Reply::typed(200, "application/octet-stream", Body::Stream(marks)),
        Picked::Wait(_) => Reply::empty(204),
        Picked::Parts(parts) => text(parts::text(&parts)),
        Picked::Reply(reply) => reply,
        Picked::Other => Reply::empty(404),
    }
}

fn typed<'a>(body: Vec<u8>, media_type: &'static str) -> Reply<'a> {
    Reply::typed(200, media_type, Body::Whole(body.into()))
}

/// A word and numbers with a space before each, a hyphen for one that is absent.
fn line<const COUNT: usize>(word: &str, numbers: [Option<u64>; COUNT]) -> Vec<u8> {
    let mut out = word.as_bytes().to_vec();
    for number in numbers {
        if !out.is_empty() {
            out.push(b' ');
        }
        match number {
            Some(number) => put_number(&mut out, number),
            None => out.push(b'-'),
        }
    }
    out
}

fn option_line(item: Option<Item<'_>>, length: usize) -> Vec<u8> {
    match item {
        None => line("none", [Some(length as u64)]),
        Some(item) => {
            let mut out = item.line("some ");
            out.push(b' ');
            put_number(&mut out, length as u64);
            out
        }
    }
}

fn data_line(data: &Data) -> Vec<u8> {
    line("", [Some(data.layer), Some(data.local), data.connection])
}
