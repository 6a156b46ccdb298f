//! Scripts: exchanges with the marks of their bodies, and the plan.
use crate::layer::Layer;
use crate::request::{self, Request};
use crate::text::{self, split_word};
use std::io::BufRead;

/// One mark of a body.
pub enum Mark<'a> {
    /// Bytes, at least one, as they stand in the script.
    Text(&'a [u8]),
    /// Bytes, at least one, by their hexadecimal digits in the script.
    Piece(&'a [u8]),
    Stall,
    Fault,
}

/// A request and the marks of its body.
pub struct Exchange<'a> {
    pub request: Request<'a>,
    pub marks: Vec<Mark<'a>>,
}

pub struct Script<'a> {
    pub exchanges: Vec<Exchange<'a>>,
    pub plan: Vec<u32>,
}

/// The most headers that an exchange may have.
const MOST_HEADERS: usize = 1_024;

/// The first faulty line, counted from 1, and why it is faulty.
pub struct Fault {
    pub line: u64,
    pub reason: &'static str,
}

/// What was read so far.
struct Reader<'a> {
    script: Script<'a>,
    /// A `plan` line came.
    planned: bool,
    /// The last exchange has a `fault` line.
    faulty: bool,
}

/// Reads a script.
pub fn read(bytes: &[u8]) -> Result<Script<'_>, Fault> {
    let mut reader = Reader {
        script: Script {
            exchanges: Vec::new(),
            plan: Vec::new(),
        },
        planned: false,
        faulty: false,
    };
    let mut rest = bytes;
    let mut number = 0;
    while !rest.is_empty() {
        let line = next_line(&mut rest);
        number += 1;
        if line.is_empty() || line[0] == b'#' {
            continue;
        }
        reader.add(line).map_err(|reason| Fault {
            line: number,
            reason,
        })?;
    }
    Ok(reader.script)
}

impl<'a> Reader<'a> {
    /// Adds a line, or tells why it is faulty.
    fn add(&mut self, line: &'a [u8]) -> Result<(), &'static str> {
        let (word, argument) = split_word(line);
        match word {
            b"plan" => {
                self.planned = true;
                read_plan(argument, &mut self.script.plan).ok_or("bad plan")
            }
            b"exchange" => self.add_exchange(argument),
            b"header" | b"param" | b"layer" | b"peer" | b"local" | b"conn" => {
                self.add_part(word, argument)
            }
            b"text" | b"piece" | b"stall" | b"fault" => self.add_mark(word, argument),
            _ => Err("unknown line"),
        }
    }

    fn add_exchange(&mut self, argument: &'a [u8]) -> Result<(), &'static str> {
        if self.planned {
            return Err(LINE_AFTER_PLAN);
        }
        self.script.exchanges.push(Exchange {
            request: request::read(argument)?,
            marks: Vec::new(),
        });
        self.faulty = false;
        Ok(())
    }

    fn add_part(&mut self, word: &[u8], argument: &'a [u8]) -> Result<(), &'static str> {
        let request = &mut self.open()?.request;
        match word {
            b"header" if request.headers.len() == MOST_HEADERS => return Err("too many headers"),
            b"header" => {
                let (name, value) = split_word(argument);
                request.headers.add(name, value).ok_or("bad header")?;
            }
            b"param" => request
                .params
                .push(read_param(argument).ok_or("bad param")?),
            b"layer" => request
                .layers
                .0
                .push(Layer::read(argument).ok_or("bad layer")?),
            b"peer" => request.peer = Some(read_peer(argument).ok_or("bad peer")?),
            b"local" => request.local = Some(read_number(argument)?),
            _ => request.connection = Some(read_number(argument)?),
        }
        Ok(())
    }

    fn add_mark(&mut self, word: &[u8], argument: &'a [u8]) -> Result<(), &'static str> {
        let faulty = self.faulty;
        let marks = &mut self.open()?.marks;
        if faulty {
            return Err("mark after fault");
        }
        match word {
            b"text" if argument.is_empty() => {}
            b"text" => marks.push(Mark::Text(argument)),
            b"piece" if argument.is_empty() => {}
            b"piece" if is_piece(argument) => marks.push(Mark::Piece(argument)),
            b"piece" => return Err("bad piece"),
            _ if !argument.is_empty() => return Err("bad mark"),
            b"stall" => marks.push(Mark::Stall),
            _ => {
                marks.push(Mark::Fault);
                self.faulty = true;
            }
        }
        Ok(())
    }

    /// The exchange that further lines are of.
    fn open(&mut self) -> Result<&mut Exchange<'a>, &'static str> {
        if self.planned {
            return Err(LINE_AFTER_PLAN);
        }
        self.script.exchanges.last_mut().ok_or("no exchange")
    }
}

const LINE_AFTER_PLAN: &str = "line after plan";

/// Takes the next line, without its end.
fn next_line<'a>(rest: &mut &'a [u8]) -> &'a [u8] {
    let whole = *rest;
    let taken = rest
        .skip_until(b'\n')
        .expect("reading a slice does not fail");
    let mut line = &whole[..taken];
    line = line.strip_suffix(b"\n").unwrap_or(line);
    line.strip_suffix(b"\r").unwrap_or(line)
}

/// A name that is not empty, one space, and a value.
fn read_param(argument: &[u8]) -> Option<(&str, &str)> {
    let param = std::str::from_utf8(argument).ok()?.split_once(' ')?;
    (!param.0.is_empty()).then_some(param)
}

fn read_number(argument: &[u8]) -> Result<u64, &'static str> {
    text::number(argument, u64::MAX).ok_or("bad number")
}

/// Four numbers with dots between, then a colon and a port.
fn read_peer(argument: &[u8]) -> Option<[u8; 4]> {
    let at = argument.iter().position(|byte| *byte == b':')?;
    text::number(&argument[at + 1..], u64::from(u16::MAX))?;
    let mut numbers = argument[..at].split(|byte| *byte == b'.');
    let mut address = [0; 4];
    for part in &mut address {
        *part = text::number(numbers.next()?, u64::from(u8::MAX))? as u8;
    }
    numbers.next().is_none().then_some(address)
}

/// Adds the entries: none, or numbers with one space between.
fn read_plan(argument: &[u8], plan: &mut Vec<u32>) -> Option<()> {
    if argument.is_empty() {
        return Some(());
    }
    let (mut value, mut digits) = (0u64, 0);
    for byte in argument {
        match byte {
            b'0'..=b'9' => {
                value = value * 10 + u64::from(byte - b'0');
                digits += 1;
                if value > u64::from(u32::MAX) {
                    return None;
                }
            }
            b' ' if digits > 0 => {
                plan.push(value as u32);
                (value, digits) = (0, 0);
            }
            _ => return None,
        }
    }
    (digits > 0).then(|| plan.push(value as u32))
}

fn is_piece(digits: &[u8]) -> bool {
    digits.len().is_multiple_of(2) && digits.iter().all(u8::is_ascii_hexdigit)
}

/// Adds the bytes that an even number of hexadecimal digits stands for.
pub fn decode_into(bytes: &mut Vec<u8>, digits: &[u8]) {
    bytes.extend(
        digits
            .chunks_exact(2)
            .map(|pair| nibble(pair[0]) << 4 | nibble(pair[1])),
    );
}

/// What a hexadecimal digit stands for.
fn nibble(digit: u8) -> u8 {
    match digit {
        b'0'..=b'9' => digit - b'0',
        b'a'..=b'f' => digit - b'a' + 10,
        _ => digit - b'A' + 10,
    }
}
