//! The arguments of a request, which the first segment of its path chooses.
use crate::accept::Accept;
use crate::body::{self, Collector, FormItem, JsonItem, WholeBytes, WholeText};
use crate::connection::Connection;
use crate::cookies;
use crate::documents;
use crate::item::Item;
use crate::lines::Lines;
use crate::pairs::{FormPairs, PathPairs};
use crate::parts::{Part, Parts};
use crate::reply::{Refusal, Reply, collected};
use crate::request::{Request, Segment};
use crate::script::Mark;
use crate::variants;
use std::borrow::Cow;

/// The arguments of a handler.
pub enum Picked<'a> {
    Bytes(Cow<'a, [u8]>),
    /// Bytes that are UTF-8.
    Text(Cow<'a, [u8]>),
    Json(Item<'a>),
    Form(Item<'a>),
    Either(Side, Item<'a>),
    /// An item where there is one, and how many bytes others left.
    Option(Option<Item<'a>>, usize),
    /// An item, or the status of its refusal.
    Result(Result<Item<'a>, u16>),
    /// An item of a path or a query.
    Pairs(Item<'a>),
    Accept(Accept<'a>),
    Connection(Box<Connection<'a>>),
    Data(Data),
    Raw(Vec<Mark<'a>>),
    Wait(u64),
    Parts(Vec<Part<'a>>),
    /// What a request as a whole is answered with.
    Reply(Reply<'a>),
    Other,
}

#[derive(Clone, Copy)]
pub enum Side {
    Left,
    Right,
}

/// The numbers of a layer, of a request and of its connection.
pub struct Data {
    pub layer: u64,
    pub local: u64,
    pub connection: Option<u64>,
}

pub type Answer<'a> = Result<Picked<'a>, Refusal>;

/// Arguments on their way.
pub enum Arguments<'a> {
    Bytes(Collector<'a, WholeBytes>),
    Text(Collector<'a, WholeText>),
    Both(Box<Both<'a>>),
    Json(Collector<'a, JsonItem>),
    Form(Collector<'a, FormItem>),
    Either(Collector<'a, WholeBytes>),
    Option(Box<OptionAndBytes<'a>>),
    Result(Collector<'a, JsonItem>),
    Lines(Box<Lines<'a>>),
    Parts(Box<Parts<'a>>),
    /// Those that wait for nothing.
    Ready(Option<Answer<'a>>),
}

/// A text body and an argument that comes late, both on their way.
pub struct Both<'a> {
    collector: Collector<'a, WholeText>,
    text: Option<Result<Cow<'a, [u8]>, Refusal>>,
    late: Late,
    came: Option<Result<(), Refusal>>,
}

/// An item or none, and the bytes that it leaves, both on their way.
pub struct OptionAndBytes<'a> {
    json: Collector<'a, JsonItem>,
    item: Option<Option<Item<'a>>>,
    bytes: Collector<'a, WholeBytes>,
    length: Option<Result<usize, Refusal>>,
}

impl<'a> Arguments<'a> {
    pub fn of(request: &Request<'a>, mut marks: Vec<Mark<'a>>) -> Arguments<'a> {
        let marks = &mut marks;
        match request.segment {
            Segment::Bytes => Arguments::Bytes(Collector::of(request, marks)),
            Segment::Text => Arguments::Text(Collector::of(request, marks)),
            Segment::Both => Arguments::Both(Box::new(Both {
                collector: Collector::of(request, marks),
                text: None,
                late: Late::of(request),
                came: None,
            })),
            Segment::Capped => Arguments::Bytes(Collector::capped(request, marks, 4)),
            Segment::CappedJson => Arguments::Json(Collector::capped(request, marks, 16)),
            Segment::Json => Arguments::Json(Collector::of(request, marks)),
            Segment::Form => Arguments::Form(Collector::of(request, marks)),
            Segment::Either => Arguments::Either(Collector::of(request, marks)),
            Segment::Option => Arguments::Option(Box::new(OptionAndBytes {
                json: Collector::of(request, marks),
                item: None,
                bytes: Collector::of(request, marks),
                length: None,
            })),
            Segment::Result => Arguments::Result(Collector::of(request, marks)),
            Segment::Lines => Arguments::Lines(Box::new(Lines::of(request, marks))),
            Segment::Parts => Arguments::Parts(Box::new(Parts::of(request, marks))),
            _ => Arguments::Ready(Some(without_delay(request, marks))),
        }
    }

    /// The arguments, or their refusal, where they are there at this poll.
    pub fn poll(&mut self, request: &Request<'a>) -> Option<Answer<'a>> {
        match self {
            Arguments::Bytes(collector) => Some(collector.poll()?.map(Picked::Bytes)),
            Arguments::Text(collector) => Some(collector.poll()?.map(Picked::Text)),
            Arguments::Both(both) => Some(both.poll()?.map(Picked::Text)),
            Arguments::Json(collector) => Some(collector.poll()?.map(Picked::Json)),
            Arguments::Form(collector) => Some(collector.poll()?.map(Picked::Form)),
            Arguments::Either(collector) => {
                Some(collector.poll()?.and_then(|body| either(request, body)))
            }
            Arguments::Option(both) => both.poll(),
            Arguments::Result(collector) => {
                let item = collector.poll()?.map_err(|refusal| refusal.status);
                Some(Ok(Picked::Result(item)))
            }
            Arguments::Lines(lines) => Some(lines.poll()?.map(|text| Picked::Text(text.into()))),
            Arguments::Parts(parts) => Some(parts.poll()?.map(Picked::Parts)),
            Arguments::Ready(answer) => answer.take(),
        }
    }
}

/// Arguments that wait for nothing.
fn without_delay<'a>(request: &Request<'a>, marks: &mut Vec<Mark<'a>>) -> Answer<'a> {
    match request.segment {
        Segment::Path => path(request),
        Segment::Query => query(request),
        Segment::Data => data(request),
        Segment::Header => match Accept::read(&request.headers) {
            Some(accept) => Ok(Picked::Accept(accept)),
            None => Err(Refusal::of(400, "invalid header")),
        },
        Segment::Who => Ok(Picked::Connection(Box::new(Connection::of(request)))),
        Segment::Cookies => {
            let text = cookies::text(request).ok_or(Refusal::of(400, "cookie is not UTF-8"))?;
            Ok(Picked::Text(text.into()))
        }
        Segment::Raw => Ok(Picked::Raw(std::mem::take(marks))),
        Segment::Wait => Ok(Picked::Wait(delay(request))),
        Segment::Document => Ok(Picked::Reply(documents::reply(request))),
        Segment::Variant => Ok(Picked::Reply(variants::reply(request))),
        _ => Ok(Picked::Other),
    }
}

fn path<'a>(request: &Request<'a>) -> Answer<'a> {
    let item = Item::read_pairs(PathPairs(request.params.iter()));
    item.map(Picked::Pairs).map_err(|fault| {
        if request.layers.has_path_handler() {
            Refusal::owned(418, format!("Path deserialize error: {fault}"))
        } else {
            Refusal::of(404, fault)
        }
    })
}

fn query<'a>(request: &Request<'a>) -> Answer<'a> {
    let item = Item::read_pairs(FormPairs(request.target.query().as_bytes()));
    item.map(Picked::Pairs).map_err(|fault| {
        let refusal = Refusal::owned(400, format!("Query deserialize error: {fault}"));
        refusal.handled(request.layers.has_query_handler())
    })
}

fn data<'a>(request: &Request<'a>) -> Answer<'a> {
    const NO_LAYER: &str = "Requested application data is not configured correctly. \
                            View/enable debug logs for more details.";
    const NO_LOCAL: &str = "Missing expected request extension data";
    let layer = request.layers.number().ok_or(Refusal::of(500, NO_LAYER));
    let local = request.local.ok_or(Refusal::of(500, NO_LOCAL));
    let (layer, local) = collected(layer, local)?;
    Ok(Picked::Data(Data {
        layer,
        local,
        connection: request.connection,
    }))
}

/// An item in JSON, else one in a form, else the refusal of the first.
fn either<'a>(request: &Request<'_>, body: Cow<'a, [u8]>) -> Answer<'a> {
    match body {
        Cow::Borrowed(body) => either_of(request, body),
        Cow::Owned(body) => Ok(match either_of(request, &body)? {
            Picked::Either(side, item) => Picked::Either(side, item.into_owned()),
            _ => Picked::Other,
        }),
    }
}

fn either_of<'a>(request: &Request<'_>, body: &'a [u8]) -> Answer<'a> {
    let refusal = match body::of_whole::<JsonItem>(request, body) {
        Ok(item) => return Ok(Picked::Either(Side::Left, item)),
        Err(refusal) => refusal,
    };
    match body::of_whole::<FormItem>(request, body) {
        Ok(item) => Ok(Picked::Either(Side::Right, item)),
        Err(_) => Err(refusal),
    }
}

impl<'a> Both<'a> {
    fn poll(&mut self) -> Option<Result<Cow<'a, [u8]>, Refusal>> {
        if self.text.is_none() {
            self.text = self.collector.poll();
        }
        if self.came.is_none() {
            self.came = self.late.poll();
        }
        match (self.text.take(), self.came.take()) {
            (Some(text), Some(came)) => Some(collected(text, came).map(|(text, ())| text)),
            (text, came) => {
                (self.text, self.came) = (text, came);
                None
            }
        }
    }
}

impl<'a> OptionAndBytes<'a> {
    fn poll(&mut self) -> Option<Answer<'a>> {
        if self.item.is_none() {
            self.item = self.json.poll().map(Result::ok);
        }
        if self.length.is_none() {
            self.length = self.bytes.poll().map(|body| body.map(|body| body.len()));
        }
        match (self.item.take(), self.length.take()) {
            (Some(item), Some(length)) => Some(length.map(|length| Picked::Option(item, length))),
            (item, length) => {
                (self.item, self.length) = (item, length);
                None
            }
        }
    }
}

/// An argument that comes late.
pub struct Late {
    left: u64,
    refusal: Option<u16>,
}

impl Late {
    fn of(request: &Request<'_>) -> Late {
        Late {
            left: delay(request),
            refusal: request
                .number("refuse", 599)
                .filter(|status| *status >= 400)
                .map(|status| status as u16),
        }
    }

    fn poll(&mut self) -> Option<Result<(), Refusal>> {
        if self.left > 0 {
            self.left -= 1;
            return None;
        }
        Some(match self.refusal {
            Some(status) => Err(Refusal::of(status, "late")),
            None => Ok(()),
        })
    }
}

fn delay(request: &Request<'_>) -> u64 {
    request.number("delay", 1_000_000).unwrap_or(0)
}
