//! The arguments of a request, which the first segment of its path chooses, and the response.
use crate::accept::Accept;
use crate::body::Collect;
use crate::cookies;
use crate::documents;
use crate::extract;
use crate::item::Item;
use crate::layer::{FormConfig, JsonConfig};
use crate::lines::Lines;
use crate::refusal::Refusal;
use crate::request::{Request, Segment};
use crate::response::Response;
use crate::script::Mark;
use bytes::Bytes;
use http::StatusCode;
use percent_encoding::percent_decode_str;
use std::borrow::Cow;
use std::task::{Poll, ready};

type Answer = Result<Response, Refusal>;

/// Arguments on their way.
pub enum Arguments {
    Bytes(Collect),
    Text(Collect),
    Both(Box<Both>),
    Json(Collect, JsonConfig),
    Form(Collect, FormConfig),
    Either(Collect),
    Lines(Box<Lines>),
    /// Those that wait for nothing.
    Ready(Option<Answer>),
}

impl Arguments {
    /// Tests the head, and begins with the body.
    pub fn of(request: &Request, marks: Vec<Mark>) -> Arguments {
        let begun = match request.segment {
            Segment::Bytes => extract::bytes(request, marks).map(Arguments::Bytes),
            Segment::Text => extract::text(request, marks).map(Arguments::Text),
            Segment::Either => extract::bytes(request, marks).map(Arguments::Either),
            Segment::Json => json(request, marks),
            Segment::Form => form(request, marks),
            Segment::Both => Ok(Arguments::Both(Box::new(Both::new(request, marks)))),
            Segment::Lines => Ok(Arguments::Lines(Box::new(Lines::new(request, marks)))),
            _ => Ok(Arguments::Ready(Some(without_delay(request)))),
        };
        begun.unwrap_or_else(|refusal| Arguments::Ready(Some(Err(refusal))))
    }

    /// The response, or the refusal, where the arguments are there at this poll.
    pub fn poll(&mut self, request: &Request) -> Poll<Answer> {
        Poll::Ready(match self {
            Arguments::Bytes(collect) => extract::bytes_of(ready!(collect.poll()))
                .map(|body| Response::typed("application/octet-stream", body)),
            Arguments::Text(collect) => {
                extract::text_of(ready!(collect.poll())).map(Response::text)
            }
            Arguments::Both(both) => ready!(both.poll()).map(Response::text),
            Arguments::Json(collect, config) => {
                let read = ready!(collect.poll());
                extract::json_of(read, collect.limit())
                    .map(|item| Response::typed("application/json", item.json()))
                    .map_err(|error| Refusal::from(error).handled(config.has_handler))
            }
            Arguments::Form(collect, config) => {
                let read = ready!(collect.poll());
                extract::form_of(read, collect.limit())
                    .map(|item| Response::typed("application/x-www-form-urlencoded", item.form()))
                    .map_err(|error| Refusal::from(error).handled(config.has_handler))
            }
            Arguments::Either(collect) => extract::bytes_of(ready!(collect.poll()))
                .and_then(|body| extract::either_of(request, body))
                .map(|(side, item)| Response::text(item.line(side))),
            Arguments::Lines(lines) => ready!(lines.poll()).map(Response::text),
            Arguments::Ready(answer) => match answer.take() {
                Some(answer) => answer,
                None => return Poll::Pending,
            },
        })
    }
}

fn json(request: &Request, marks: Vec<Mark>) -> Result<Arguments, Refusal> {
    let config = request.json();
    match extract::test_json(request, config) {
        Ok(()) => Ok(Arguments::Json(Collect::new(marks, config.limit), config)),
        Err(error) => Err(Refusal::from(error).handled(config.has_handler)),
    }
}

fn form(request: &Request, marks: Vec<Mark>) -> Result<Arguments, Refusal> {
    let config = request.form();
    match extract::test_form(request, config) {
        Ok(()) => Ok(Arguments::Form(Collect::new(marks, config.limit), config)),
        Err(error) => Err(Refusal::from(error).handled(config.has_handler)),
    }
}

/// Arguments that wait for nothing.
fn without_delay(request: &Request) -> Answer {
    match request.segment {
        Segment::Path => path(request),
        Segment::Query => query(request),
        Segment::Header => {
            let accept = Accept::read(&request.headers);
            let accept = accept.ok_or_else(|| Refusal::bad_request("invalid header"))?;
            Ok(Response::text(accept.text()))
        }
        Segment::Cookies => {
            let text = cookies::text(&request.headers);
            let text = text.ok_or_else(|| Refusal::bad_request("cookie is not UTF-8"))?;
            Ok(Response::text(text))
        }
        Segment::Documents => Ok(documents::reply(request)),
        _ => Ok(Response::empty(StatusCode::NOT_FOUND)),
    }
}

fn path(request: &Request) -> Answer {
    let decoded = |value| percent_decode_str(value).decode_utf8_lossy();
    let pairs = request.params.iter();
    let pairs = pairs.map(|(name, value)| (Cow::Borrowed(name.as_str()), decoded(value)));
    match Item::read_pairs(pairs) {
        Ok(item) => Ok(Response::text(item.line(""))),
        Err(fault) if request.has_path_handler() => {
            let text = format!("Path deserialize error: {fault}");
            Err(Refusal::new(StatusCode::IM_A_TEAPOT, text))
        }
        Err(fault) => Err(Refusal::new(StatusCode::NOT_FOUND, fault)),
    }
}

fn query(request: &Request) -> Answer {
    let query = request.target.query().unwrap_or("");
    let item = Item::read_form(query.as_bytes()).map_err(|fault| {
        let refusal = Refusal::bad_request(format!("Query deserialize error: {fault}"));
        refusal.handled(request.has_query_handler())
    })?;
    Ok(Response::text(item.line("")))
}

/// A text body and an argument that comes late, both on their way.
pub struct Both {
    body: Option<Collect>,
    text: Option<Result<Bytes, Refusal>>,
    delay: u64,
    late: Result<(), StatusCode>,
}

impl Both {
    fn new(request: &Request, marks: Vec<Mark>) -> Both {
        let (body, text) = match extract::text(request, marks) {
            Ok(body) => (Some(body), None),
            Err(refusal) => (None, Some(Err(refusal))),
        };
        let refused = request
            .number("refuse", 599)
            .filter(|status| *status >= 400);
        let status = refused.and_then(|status| StatusCode::from_u16(status as u16).ok());
        Both {
            body,
            text,
            delay: request.number("delay", 1_000_000).unwrap_or(0),
            late: status.map_or(Ok(()), Err),
        }
    }

    /// The text, or all refusals, once both arguments are there.
    fn poll(&mut self) -> Poll<Result<Bytes, Refusal>> {
        if self.text.is_none()
            && let Some(body) = &mut self.body
            && let Poll::Ready(read) = body.poll()
        {
            self.text = Some(extract::text_of(read));
        }
        // The late argument is asked in the same poll, whether the body is there or not.
        let is_late = self.delay > 0;
        self.delay = self.delay.saturating_sub(1);
        match (is_late, self.text.take()) {
            (false, Some(text)) => Poll::Ready(match self.late {
                Ok(()) => text,
                Err(status) => Err(all_refusals(text, Refusal::new(status, "late"))),
            }),
            (_, text) => {
                self.text = text;
                Poll::Pending
            }
        }
    }
}

/// The refusal of a body, where it is refused, and another one.
fn all_refusals(body: Result<Bytes, Refusal>, other: Refusal) -> Refusal {
    match body {
        Ok(_) => other,
        Err(refusal) => refusal.and(other),
    }
}
