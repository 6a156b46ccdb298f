//! Replies.
use crate::script::Mark;
use std::borrow::Cow;

/// Why arguments are refused: the status and the text of the reply.
#[derive(Debug)]
pub struct Refusal {
    pub status: u16,
    pub text: Cow<'static, str>,
}

impl Refusal {
    pub fn of(status: u16, text: &'static str) -> Refusal {
        Refusal {
            status,
            text: Cow::Borrowed(text),
        }
    }

    pub fn owned(status: u16, text: String) -> Refusal {
        Refusal {
            status,
            text: Cow::Owned(text),
        }
    }

    /// This refusal and another one: the status of this one, and the texts of both, one a line.
    pub fn and(self, other: Refusal) -> Refusal {
        Refusal::owned(self.status, format!("{}\n{}", self.text, other.text))
    }

    /// What the demo's handler makes of it, where there is one.
    pub fn handled(self, has_handler: bool) -> Refusal {
        Refusal {
            status: if has_handler { 418 } else { self.status },
            text: self.text,
        }
    }
}

pub struct Reply<'a> {
    pub status: u16,
    pub headers: Vec<(&'static str, Cow<'a, str>)>,
    pub body: Body<'a>,
}

pub enum Body<'a> {
    Whole(Cow<'a, [u8]>),
    /// A payload that nobody has read.
    Stream(Vec<Mark<'a>>),
}

/// Both values, or all refusals.
pub fn collected<A, B>(
    first: Result<A, Refusal>,
    second: Result<B, Refusal>,
) -> Result<(A, B), Refusal> {
    match (first, second) {
        (Ok(first), Ok(second)) => Ok((first, second)),
        (Err(first), Err(second)) => Err(first.and(second)),
        (Err(refusal), Ok(_)) | (Ok(_), Err(refusal)) => Err(refusal),
    }
}

impl<'a> Reply<'a> {
    /// A reply with this status and nothing else.
    pub fn empty(status: u16) -> Reply<'a> {
        Reply {
            status,
            headers: Vec::new(),
            body: Body::Whole(Cow::Borrowed(&[])),
        }
    }

    /// A reply with a body of this type.
    pub fn typed(status: u16, media_type: &'static str, body: Body<'a>) -> Reply<'a> {
        Reply {
            status,
            headers: vec![("content-type", Cow::Borrowed(media_type))],
            body,
        }
    }

    /// The same with this header.
    pub fn with(mut self, name: &'static str, value: impl Into<Cow<'a, str>>) -> Reply<'a> {
        self.headers.push((name, value.into()));
        self
    }

    /// A reply with this text.
    pub fn text(status: u16, text: Cow<'a, [u8]>) -> Reply<'a> {
        Reply::typed(status, "text/plain; charset=utf-8", Body::Whole(text))
    }
}

impl From<Refusal> for Reply<'_> {
    fn from(refusal: Refusal) -> Self {
        let text = match refusal.text {
            Cow::Borrowed(text) => Cow::Borrowed(text.as_bytes()),
            Cow::Owned(text) => Cow::Owned(text.into_bytes()),
        };
        Reply::text(refusal.status, text)
    }
}
