//! The demo's target: a name and a number.
use crate::text;
use serde_json::{Map, Value};
use std::borrow::Cow;

pub struct Item {
    n: u64,
    name: String,
}

impl Item {
    /// Reads an object with a name and a number, or tells why there is none.
    pub fn read_json(body: &[u8]) -> Result<Item, &'static str> {
        let value: Value = serde_json::from_slice(body).map_err(|_| "no JSON")?;
        if holds_float(&value) {
            return Err("float");
        }
        let Value::Object(mut members) = value else {
            return Err("no object");
        };
        let name = match members.remove("name").ok_or("missing name")? {
            Value::String(name) => name,
            _ => return Err("name is no text"),
        };
        let n = members.get("n").ok_or("missing n")?.as_u64();
        n.map(|n| Item { n, name }).ok_or("n is no whole number")
    }

    /// Reads the values of both names, or tells why there is no item.
    pub fn read_pairs<'a>(
        pairs: impl Iterator<Item = (Cow<'a, str>, Cow<'a, str>)>,
    ) -> Result<Item, &'static str> {
        let (mut name, mut n) = (Found::default(), Found::default());
        for (key, value) in pairs {
            match &*key {
                "name" => name.add(value),
                "n" => n.add(value),
                _ => {}
            }
        }
        let name = name.only("missing name", "duplicate name")?;
        let n = n.only("missing n", "duplicate n")?;
        let n = text::number(n.as_bytes(), u64::MAX).ok_or("n is no number")?;
        let name = name.into_owned();
        Ok(Item { n, name })
    }

    pub fn read_form(body: &[u8]) -> Result<Item, &'static str> {
        Item::read_pairs(form_urlencoded::parse(body))
    }

    /// An object of both, whose members are written in the order of their names.
    pub fn json(self) -> Vec<u8> {
        let mut members = Map::new();
        members.insert("name".into(), self.name.into());
        members.insert("n".into(), self.n.into());
        serde_json::to_vec(&Value::Object(members)).expect("a text and a number can be written")
    }

    pub fn form(&self) -> String {
        form_urlencoded::Serializer::new(String::new())
            .append_pair("name", &self.name)
            .append_pair("n", itoa::Buffer::new().format(self.n))
            .finish()
    }

    /// A word, the name and the number.
    pub fn line(&self, word: &str) -> String {
        format!("{word}{} {}", self.name, self.n)
    }
}

fn holds_float(value: &Value) -> bool {
    match value {
        Value::Number(number) => number.is_f64(),
        Value::Array(items) => items.iter().any(holds_float),
        Value::Object(members) => members.values().any(holds_float),
        _ => false,
    }
}

/// The first value of a name, and whether there are more.
#[derive(Default)]
struct Found<'a> {
    first: Option<Cow<'a, str>>,
    has_more: bool,
}

impl<'a> Found<'a> {
    fn add(&mut self, value: Cow<'a, str>) {
        match self.first {
            None => self.first = Some(value),
            Some(_) => self.has_more = true,
        }
    }

    fn only(
        self,
        missing: &'static str,
        twice: &'static str,
    ) -> Result<Cow<'a, str>, &'static str> {
        match self.first {
            None => Err(missing),
            Some(_) if self.has_more => Err(twice),
            Some(value) => Ok(value),
        }
    }
}
