//! Who asks, and by what name.
use crate::headers::is_header_text;
use crate::request::Request;
use crate::text::{self, trimmed};
use std::borrow::Cow;

pub struct Connection<'a> {
    host: Cow<'a, str>,
    scheme: Cow<'a, str>,
    peer: Option<[u8; 4]>,
    real: Option<&'a [u8]>,
}

/// What the demo is called where no header says it.
const HOST: &str = "localhost:8080";

impl<'a> Connection<'a> {
    pub fn of(request: &Request<'a>) -> Connection<'a> {
        let forwarded = Forwarded::of(request);
        let first = |name: &str| {
            let value = request
                .headers
                .get(name)
                .filter(|value| is_header_text(value))?;
            Some(trimmed(value.split(|byte| *byte == b',').next()?))
        };
        let host = forwarded
            .host
            .or_else(|| first("x-forwarded-host"))
            .or_else(|| {
                request
                    .headers
                    .get("host")
                    .filter(|value| is_header_text(value))
            })
            .or_else(|| request.target.authority.map(str::as_bytes));
        let scheme = forwarded
            .proto
            .or_else(|| first("x-forwarded-proto"))
            .map(String::from_utf8_lossy);
        Connection {
            host: host.map_or(Cow::Borrowed(HOST), String::from_utf8_lossy),
            scheme: scheme.unwrap_or_else(|| request.target.lower_scheme()),
            peer: request.peer,
            real: forwarded.client.or_else(|| first("x-forwarded-for")),
        }
    }

    pub fn text(&self) -> Vec<u8> {
        let peer = self.peer.map(dotted);
        let absent = b"-".as_slice();
        let real = self.real.or(peer.as_deref()).unwrap_or(absent);
        [
            b"host=".as_slice(),
            self.host.as_bytes(),
            b" scheme=",
            self.scheme.as_bytes(),
            b" peer=",
            peer.as_deref().unwrap_or(absent),
            b" realip=",
            real,
        ]
        .concat()
    }
}

fn dotted(address: [u8; 4]) -> Vec<u8> {
    let mut out = Vec::with_capacity(16);
    for (at, number) in address.iter().enumerate() {
        if at > 0 {
            out.push(b'.');
        }
        text::put_number(&mut out, u64::from(*number));
    }
    out
}

/// The first value of each name in the Forwarded headers.
#[derive(Default)]
struct Forwarded<'a> {
    client: Option<&'a [u8]>,
    proto: Option<&'a [u8]>,
    host: Option<&'a [u8]>,
}

impl<'a> Forwarded<'a> {
    fn of(request: &Request<'a>) -> Forwarded<'a> {
        let mut forwarded = Forwarded::default();
        let values = request.headers.all("forwarded");
        for value in values.filter(|value| is_header_text(value)) {
            for pair in value.split(|byte| matches!(byte, b';' | b',')) {
                forwarded.add(trimmed(pair));
            }
        }
        forwarded
    }

    fn add(&mut self, pair: &'a [u8]) {
        let Some(at) = pair.iter().position(|byte| *byte == b'=') else {
            return;
        };
        let (name, value) = (trimmed(&pair[..at]), unquoted(trimmed(&pair[at + 1..])));
        if name.eq_ignore_ascii_case(b"for") {
            self.client = self.client.or_else(|| Some(bare(value)));
        } else if name.eq_ignore_ascii_case(b"proto") {
            self.proto = self.proto.or(Some(value));
        } else if name.eq_ignore_ascii_case(b"host") {
            self.host = self.host.or(Some(value));
        }
    }
}

/// Without the double quotes at both ends.
fn unquoted(mut value: &[u8]) -> &[u8] {
    while let [b'"', rest @ ..] | [rest @ .., b'"'] = value {
        value = rest;
    }
    value
}

/// Without the port, and without the brackets of an address of version 6.
fn bare(value: &[u8]) -> &[u8] {
    if !value.starts_with(b"[") {
        let end = value.iter().position(|byte| *byte == b':');
        return &value[..end.unwrap_or(value.len())];
    }
    let end = value.windows(2).position(|pair| pair == b"]:");
    let mut address = &value[..end.unwrap_or(value.len())];
    while let [b'[', rest @ ..] | [rest @ .., b']'] = address {
        address = rest;
    }
    address
}
