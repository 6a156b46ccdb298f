//! Requests, as a script asks for them.
use crate::layer::{FormConfig, JsonConfig, Layer, PayloadConfig};
use crate::text;
use http::header::{AsHeaderName, HeaderMap, HeaderName, HeaderValue};
use http::{Method, Uri};
use std::net::{Ipv4Addr, SocketAddrV4};
use std::rc::Rc;

/// A request without its body.
pub struct Request {
    pub method: Method,
    pub target: Uri,
    pub segment: Segment,
    pub headers: HeaderMap,
    /// As a router would match them, in their order.
    pub params: Vec<(String, String)>,
    /// The nearest one stands last.
    pub layers: Vec<Rc<Layer>>,
    pub origin: Origin,
}

/// Where a request came from, and the numbers that it and its connection hold. No segment that is
/// written here asks for them.
#[derive(Default)]
pub struct Origin {
    pub peer: Option<SocketAddrV4>,
    pub local: Option<u64>,
    pub connection: Option<u64>,
}

/// What the first segment of a path asks for.
#[derive(Clone, Copy)]
pub enum Segment {
    Bytes,
    Text,
    Both,
    Json,
    Form,
    Either,
    Path,
    Query,
    Header,
    Cookies,
    Lines,
    Documents,
    Other,
}

/// Why there is no request.
pub enum NoRequest {
    Malformed,
    /// It asks for a segment of the demo that is not written here.
    Lacking,
}

impl Request {
    /// Reads a method, one space and a target.
    pub fn read(argument: &[u8]) -> Result<Request, NoRequest> {
        let (method, target) = read_line(argument).ok_or(NoRequest::Malformed)?;
        Request::of(method, target)
    }

    /// A request with this method and this target, and nothing else.
    pub fn of(method: Method, target: Uri) -> Result<Request, NoRequest> {
        let segment = Segment::of(target.path()).ok_or(NoRequest::Lacking)?;
        Ok(Request {
            method,
            target,
            segment,
            headers: HeaderMap::new(),
            params: Vec::new(),
            layers: Vec::new(),
            origin: Origin::default(),
        })
    }

    /// Adds the header of a line: a name, and after one space a value, empty without a space.
    pub fn add_header(&mut self, argument: &[u8]) -> Option<()> {
        let (name, value) = text::split_word(argument);
        let name = HeaderName::from_bytes(name).ok()?;
        let value = HeaderValue::from_bytes(value).ok()?;
        self.headers.append(name, value);
        Some(())
    }

    /// Adds a parameter: a name that is not empty, one space, and a value.
    pub fn add_param(&mut self, argument: &[u8]) -> Option<()> {
        let (name, value) = std::str::from_utf8(argument).ok()?.split_once(' ')?;
        let param = (!name.is_empty()).then(|| (name.to_owned(), value.to_owned()))?;
        self.params.push(param);
        Some(())
    }

    /// The first value of a header.
    pub fn header(&self, name: impl AsHeaderName) -> Option<&[u8]> {
        Some(self.headers.get(name)?.as_bytes())
    }

    /// The number of the first parameter of this name, where it is digits alone and at most `most`.
    pub fn number(&self, name: &str, most: u64) -> Option<u64> {
        let (_, value) = self.params.iter().find(|param| param.0 == name)?;
        text::number(value.as_bytes(), most)
    }

    /// What the nearest layer has that has it.
    fn nearest<'a, T>(&'a self, own: impl FnMut(&'a Layer) -> Option<T>) -> Option<T> {
        self.layers.iter().rev().map(Rc::as_ref).find_map(own)
    }

    /// The nearest layer's own configuration, else the nearest one's shared, else the default.
    pub fn payload(&self) -> &PayloadConfig {
        self.nearest(|layer| layer.payload.as_ref())
            .or_else(|| self.nearest(|layer| layer.shared_payload.as_ref()))
            .unwrap_or(&PayloadConfig::DEFAULT)
    }

    pub fn json(&self) -> JsonConfig {
        self.nearest(|layer| layer.json).unwrap_or_default()
    }

    pub fn form(&self) -> FormConfig {
        self.nearest(|layer| layer.form).unwrap_or_default()
    }

    pub fn has_path_handler(&self) -> bool {
        self.layers.iter().any(|layer| layer.has_path_handler)
    }

    pub fn has_query_handler(&self) -> bool {
        self.layers.iter().any(|layer| layer.has_query_handler)
    }
}

fn read_line(argument: &[u8]) -> Option<(Method, Uri)> {
    let (method, target) = text::split_word(argument);
    if target.contains(&b' ') {
        return None;
    }
    Some((
        Method::from_bytes(method).ok()?,
        Uri::try_from(target).ok()?,
    ))
}

/// Reads four numbers with dots between, then a colon and a port.
pub fn read_peer(argument: &[u8]) -> Option<SocketAddrV4> {
    let at = argument.iter().position(|byte| *byte == b':')?;
    let port = text::number(&argument[at + 1..], u64::from(u16::MAX))?;
    let mut numbers = argument[..at].split(|byte| *byte == b'.');
    let mut address = [0; 4];
    for part in &mut address {
        *part = text::number(numbers.next()?, u64::from(u8::MAX))? as u8;
    }
    let address = SocketAddrV4::new(Ipv4Addr::from(address), port as u16);
    numbers.next().is_none().then_some(address)
}

impl Segment {
    /// What a path asks for, `None` where that is not written here.
    fn of(path: &str) -> Option<Segment> {
        Some(match path.split('/').nth(1).unwrap_or("") {
            "bytes" => Segment::Bytes,
            "text" => Segment::Text,
            "both" => Segment::Both,
            "json" => Segment::Json,
            "form" => Segment::Form,
            "either" => Segment::Either,
            "path" => Segment::Path,
            "query" => Segment::Query,
            "header" => Segment::Header,
            "cookies" => Segment::Cookies,
            "lines" => Segment::Lines,
            "doc" => Segment::Documents,
            "capped" | "capped-json" | "data" | "option" | "parts" | "raw" | "result"
            | "variant" | "wait" | "who" => return None,
            _ => Segment::Other,
        })
    }
}
