//! The demo's target: a name and a number.
use crate::json::{self, Reader, Value};
use crate::pairs::{self, FormPairs, Pairs};
use crate::text;
use std::borrow::Cow;

pub struct Item<'a> {
    pub name: Cow<'a, str>,
    pub n: u64,
}

impl<'a> Item<'a> {
    /// Reads an object with a name and a number, or tells why there is none.
    pub fn read_json(body: &'a [u8]) -> Result<Item<'a>, &'static str> {
        const NO_JSON: &str = "no JSON";
        let text = std::str::from_utf8(body).map_err(|_| NO_JSON)?;
        let (mut name, mut n) = (None, None);
        let (is_object, holds_float) = Reader::of(text)
            .read(|member, value| {
                if member.is("name") {
                    name = Some(value);
                } else if member.is("n") {
                    n = Some(value);
                }
            })
            .ok_or(NO_JSON)?;
        if holds_float {
            return Err("float");
        }
        if !is_object {
            return Err("no object");
        }
        let name = match name.ok_or("missing name")? {
            Value::Text(name) => name,
            _ => return Err("name is no text"),
        };
        match n.ok_or("missing n")? {
            Value::Whole(n) => Ok(Item {
                name: name.value(),
                n,
            }),
            _ => Err("n is no whole number"),
        }
    }

    /// Reads the values of both names, or tells why there is no item.
    pub fn read_pairs<P: Pairs<'a>>(pairs: P) -> Result<Item<'a>, &'static str> {
        let (mut name, mut n) = (Found::default(), Found::default());
        for (raw, value) in pairs {
            if P::is_named(raw, "name") {
                name.add(value);
            } else if P::is_named(raw, "n") {
                n.add(value);
            }
        }
        let name = name.only("missing name", "duplicate name")?;
        let n = n.only("missing n", "duplicate n")?;
        match text::number(P::value(n).as_bytes(), u64::MAX) {
            Some(n) => Ok(Item {
                name: P::value(name),
                n,
            }),
            None => Err("n is no number"),
        }
    }

    pub fn read_form(body: &'a [u8]) -> Result<Item<'a>, &'static str> {
        Item::read_pairs(FormPairs(body))
    }

    /// With a name of its own.
    pub fn into_owned(self) -> Item<'static> {
        Item {
            name: Cow::Owned(self.name.into_owned()),
            n: self.n,
        }
    }

    pub fn json(&self) -> Vec<u8> {
        let mut out = Vec::with_capacity(self.name.len() + 32);
        out.extend_from_slice(b"{\"n\":");
        text::put_number(&mut out, self.n);
        out.extend_from_slice(b",\"name\":");
        json::put_text(&mut out, &self.name);
        out.push(b'}');
        out
    }

    pub fn form(&self) -> Vec<u8> {
        let mut out = Vec::with_capacity(self.name.len() + 32);
        out.extend_from_slice(b"name=");
        pairs::put_form_value(&mut out, &self.name);
        out.extend_from_slice(b"&n=");
        text::put_number(&mut out, self.n);
        out
    }

    /// A word, the name and the number.
    pub fn line(&self, word: &str) -> Vec<u8> {
        let mut out = Vec::with_capacity(word.len() + self.name.len() + 32);
        out.extend_from_slice(word.as_bytes());
        out.extend_from_slice(self.name.as_bytes());
        out.push(b' ');
        text::put_number(&mut out, self.n);
        out
    }
}

/// The first value of a name, and whether there are more.
#[derive(Default)]
struct Found<'a> {
    first: Option<&'a [u8]>,
    has_more: bool,
}

impl<'a> Found<'a> {
    fn add(&mut self, value: &'a [u8]) {
        self.has_more |= self.first.is_some();
        self.first = self.first.or(Some(value));
    }

    fn only(&self, missing: &'static str, twice: &'static str) -> Result<&'a [u8], &'static str> {
        match self.first {
            None => Err(missing),
            Some(_) if self.has_more => Err(twice),
            Some(value) => Ok(value),
        }
    }
}
