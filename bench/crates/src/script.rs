//! Scripts: exchanges with the marks of their bodies, and the plan.
use crate::layer::Layer;
use crate::request::{self, NoRequest, Request};
use crate::text::{number, split_word};
use bytes::Bytes;
use std::rc::Rc;

/// One mark of a body.
pub enum Mark {
    /// At least one byte.
    Piece(Bytes),
    Stall,
    Fault,
}

/// A request and the marks of its body.
pub struct Exchange {
    pub request: Request,
    pub marks: Vec<Mark>,
}

#[derive(Default)]
pub struct Script {
    pub exchanges: Vec<Exchange>,
    pub plan: Vec<u32>,
}

/// Why a script is not read.
pub enum Unread {
    /// The first faulty line, counted from 1, and why it is faulty.
    Faulty { line: u64, reason: &'static str },
    /// It asks for a segment of the demo that is not written here.
    Lacking,
}

/// Why a line is not read.
enum Refused {
    Faulty(&'static str),
    Lacking,
}

impl From<&'static str> for Refused {
    fn from(reason: &'static str) -> Self {
        Refused::Faulty(reason)
    }
}

/// The most headers that an exchange may have.
const MOST_HEADERS: usize = 1_024;

/// What was read so far.
struct Reader<'a> {
    /// Pieces share it.
    input: &'a Bytes,
    script: Script,
    /// A `plan` line came.
    is_planned: bool,
    /// How many headers the last exchange has.
    headers: usize,
}

/// Reads a script.
pub fn read(input: &Bytes) -> Result<Script, Unread> {
    let mut reader = Reader {
        input,
        script: Script::default(),
        is_planned: false,
        headers: 0,
    };
    let mut rest = input.as_ref();
    let mut number = 0;
    while !rest.is_empty() {
        let line = next_line(&mut rest);
        number += 1;
        if line.is_empty() || line[0] == b'#' {
            continue;
        }
        reader.add(line).map_err(|refused| match refused {
            Refused::Faulty(reason) => Unread::Faulty {
                line: number,
                reason,
            },
            Refused::Lacking => Unread::Lacking,
        })?;
    }
    Ok(reader.script)
}

impl Reader<'_> {
    fn add(&mut self, line: &[u8]) -> Result<(), Refused> {
        let (word, argument) = split_word(line);
        match word {
            b"plan" => {
                self.is_planned = true;
                read_plan(argument, &mut self.script.plan).ok_or("bad plan")?;
                Ok(())
            }
            b"exchange" => self.add_exchange(argument),
            b"header" => self.add_header(argument),
            b"param" | b"layer" | b"peer" | b"local" | b"conn" => self.add_part(word, argument),
            b"text" | b"piece" | b"stall" | b"fault" => self.add_mark(word, argument),
            _ => Err("unknown line".into()),
        }
    }

    fn add_exchange(&mut self, argument: &[u8]) -> Result<(), Refused> {
        if self.is_planned {
            return Err(LINE_AFTER_PLAN.into());
        }
        let request = Request::read(argument).map_err(|why| match why {
            NoRequest::Malformed => Refused::Faulty("bad exchange"),
            NoRequest::Lacking => Refused::Lacking,
        })?;
        self.script.exchanges.push(Exchange {
            request,
            marks: Vec::new(),
        });
        self.headers = 0;
        Ok(())
    }

    fn add_header(&mut self, argument: &[u8]) -> Result<(), Refused> {
        let count = self.headers;
        let request = &mut self.open()?.request;
        if count == MOST_HEADERS {
            return Err("too many headers".into());
        }
        request.add_header(argument).ok_or("bad header")?;
        self.headers += 1;
        Ok(())
    }

    fn add_part(&mut self, word: &[u8], argument: &[u8]) -> Result<(), Refused> {
        let request = &mut self.open()?.request;
        let origin = &mut request.origin;
        match word {
            b"param" => request.add_param(argument).ok_or("bad param")?,
            b"layer" => {
                let layer = Layer::read(argument).ok_or("bad layer")?;
                request.layers.push(Rc::new(layer));
            }
            b"peer" => origin.peer = Some(request::read_peer(argument).ok_or("bad peer")?),
            b"local" => origin.local = Some(number(argument, u64::MAX).ok_or("bad number")?),
            _ => origin.connection = Some(number(argument, u64::MAX).ok_or("bad number")?),
        }
        Ok(())
    }

    fn add_mark(&mut self, word: &[u8], argument: &[u8]) -> Result<(), Refused> {
        let input = self.input;
        let marks = &mut self.open()?.marks;
        if matches!(marks.last(), Some(Mark::Fault)) {
            return Err("mark after fault".into());
        }
        marks.push(match word {
            b"text" | b"piece" if argument.is_empty() => return Ok(()),
            b"text" => Mark::Piece(input.slice_ref(argument)),
            b"piece" => Mark::Piece(decoded(argument).ok_or("bad piece")?),
            _ if !argument.is_empty() => return Err("bad mark".into()),
            b"stall" => Mark::Stall,
            _ => Mark::Fault,
        });
        Ok(())
    }

    /// The exchange that further lines are of.
    fn open(&mut self) -> Result<&mut Exchange, Refused> {
        if self.is_planned {
            return Err(LINE_AFTER_PLAN.into());
        }
        Ok(self.script.exchanges.last_mut().ok_or("no exchange")?)
    }
}

/// Takes the next line, without its end.
fn next_line<'a>(rest: &mut &'a [u8]) -> &'a [u8] {
    let line = match rest.iter().position(|byte| *byte == b'\n') {
        Some(end) => {
            let (line, behind) = rest.split_at(end);
            *rest = &behind[1..];
            line
        }
        None => std::mem::take(rest),
    };
    line.strip_suffix(b"\r").unwrap_or(line)
}

const LINE_AFTER_PLAN: &str = "line after plan";

/// Adds the entries: none, or numbers with one space between.
fn read_plan(argument: &[u8], plan: &mut Vec<u32>) -> Option<()> {
    if argument.is_empty() {
        return Some(());
    }
    for entry in argument.split(|byte| *byte == b' ') {
        plan.push(number(entry, u64::from(u32::MAX))? as u32);
    }
    Some(())
}

/// The bytes that an even number of hexadecimal digits stands for.
fn decoded(digits: &[u8]) -> Option<Bytes> {
    let (pairs, []) = digits.as_chunks() else {
        return None;
    };
    let digit = |byte: u8| char::from(byte).to_digit(16);
    let bytes = pairs
        .iter()
        .map(|&[high, low]| Some((digit(high)? << 4 | digit(low)?) as u8));
    bytes.collect()
}
