//! Requests, as a script asks for them. They borrow from its bytes.
use crate::headers::Headers;
use crate::layer::Layers;
use crate::target::{self, Target};
use crate::text::{self, is_token_byte};

/// A request without its body.
pub struct Request<'a> {
    pub method: &'a str,
    pub target: Target<'a>,
    pub headers: Headers<'a>,
    /// As a router would match them, in their order.
    pub params: Vec<(&'a str, &'a str)>,
    pub layers: Layers<'a>,
    /// The address that it comes from.
    pub peer: Option<[u8; 4]>,
    /// A number that it holds itself.
    pub local: Option<u64>,
    /// A number that its connection holds.
    pub connection: Option<u64>,
    pub segment: Segment,
}

/// What the first segment of a path asks for.
pub enum Segment {
    Bytes,
    Text,
    Both,
    Json,
    Form,
    Either,
    Option,
    Result,
    Path,
    Query,
    Header,
    Who,
    Data,
    Cookies,
    Lines,
    Capped,
    CappedJson,
    Raw,
    Wait,
    Document,
    Variant,
    Parts,
    Other,
}

const BAD_EXCHANGE: &str = "bad exchange";

/// Reads a method, one space and a target, or tells why the line is faulty.
pub fn read(argument: &[u8]) -> Result<Request<'_>, &'static str> {
    let (method, target) = read_parts(argument).ok_or(BAD_EXCHANGE)?;
    Ok(Request {
        method,
        segment: Segment::of(target.path_and_query),
        target,
        headers: Headers::default(),
        params: Vec::new(),
        layers: Layers::default(),
        peer: None,
        local: None,
        connection: None,
    })
}

fn read_parts(argument: &[u8]) -> Option<(&str, Target<'_>)> {
    let at = argument.iter().position(|byte| !is_token_byte(*byte))?;
    if at == 0 || argument[at] != b' ' {
        return None;
    }
    let target = &argument[at + 1..];
    if target.contains(&b' ') {
        return None;
    }
    Some((
        std::str::from_utf8(&argument[..at]).ok()?,
        target::read(target)?,
    ))
}

impl Segment {
    /// What a path with its query asks for.
    fn of(path_and_query: &str) -> Segment {
        let path = path_and_query.as_bytes();
        let start = match path {
            [b'/', ..] => 1,
            _ => return Segment::Other,
        };
        let end = path[start..]
            .iter()
            .position(|byte| matches!(byte, b'/' | b'?'));
        match &path[start..end.map_or(path.len(), |end| start + end)] {
            b"bytes" => Segment::Bytes,
            b"text" => Segment::Text,
            b"both" => Segment::Both,
            b"json" => Segment::Json,
            b"form" => Segment::Form,
            b"either" => Segment::Either,
            b"option" => Segment::Option,
            b"result" => Segment::Result,
            b"path" => Segment::Path,
            b"query" => Segment::Query,
            b"header" => Segment::Header,
            b"data" => Segment::Data,
            b"raw" => Segment::Raw,
            b"wait" => Segment::Wait,
            b"who" => Segment::Who,
            b"cookies" => Segment::Cookies,
            b"lines" => Segment::Lines,
            b"capped" => Segment::Capped,
            b"capped-json" => Segment::CappedJson,
            b"doc" => Segment::Document,
            b"variant" => Segment::Variant,
            b"parts" => Segment::Parts,
            _ => Segment::Other,
        }
    }
}

impl Request<'_> {
    /// The number that the first parameter of this name has, where it is digits alone and at most `most`.
    pub fn number(&self, name: &str, most: u64) -> Option<u64> {
        let (_, value) = self.params.iter().find(|param| param.0 == name)?;
        text::number(value.as_bytes(), most)
    }
}
