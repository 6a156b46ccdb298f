//! Range.
use crate::map::{Header, Headers};
use crate::text::{number, push_number};

pub enum Range {
    Bytes(Vec<ByteRange>),
    Other(String, String),
}

pub enum ByteRange {
    FromTo(u64, u64),
    From(u64),
    Last(u64),
}

impl ByteRange {
    fn read(text: &str) -> Option<ByteRange> {
        match text.split_once('-')? {
            ("", last) => number(last, u64::MAX).map(ByteRange::Last),
            (first, "") => number(first, u64::MAX).map(ByteRange::From),
            (first, last) => {
                let (first, last) = (number(first, u64::MAX)?, number(last, u64::MAX)?);
                (first <= last).then_some(ByteRange::FromTo(first, last))
            }
        }
    }

    fn print(&self, out: &mut String) {
        match *self {
            ByteRange::FromTo(first, last) => {
                push_number(out, first);
                out.push('-');
                push_number(out, last);
            }
            ByteRange::From(first) => {
                push_number(out, first);
                out.push('-');
            }
            ByteRange::Last(count) => {
                out.push('-');
                push_number(out, count);
            }
        }
    }
}

impl Header for Range {
    fn read(headers: &Headers) -> Option<Self> {
        let (unit, rest) = headers.first_text("range")?.split_once('=')?;
        if unit == "bytes" {
            let mut ranges = Vec::new();
            for item in rest.split(',') {
                ranges.extend(ByteRange::read(item.trim_ascii()));
            }
            return (!ranges.is_empty()).then_some(Range::Bytes(ranges));
        }
        let is_other = !unit.is_empty() && !rest.is_empty();
        is_other.then(|| Range::Other(unit.to_owned(), rest.to_owned()))
    }

    fn print(&self, out: &mut String) {
        match self {
            Range::Bytes(ranges) => {
                out.push_str("bytes=");
                for (at, range) in ranges.iter().enumerate() {
                    if at > 0 {
                        out.push(',');
                    }
                    range.print(out);
                }
            }
            Range::Other(unit, rest) => {
                out.push_str(unit);
                out.push('=');
                out.push_str(rest);
            }
        }
    }
}
