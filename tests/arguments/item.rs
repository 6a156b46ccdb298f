//! An item that is read from JSON and from forms, and written as both, and a value that is not
//! written. They promise nothing: the tests compare what they do.
use serde_json::{Value, json};
use std::alloc::Global;
use std::fmt;
use web_codec::{ReadFault, ReadJson, ReadPairs, WriteFault, WriteJson, WritePairs};
use web_texts::{Fail, Pair, Text, read_digits};

/// A named number.
#[derive(Debug, Drop)]
pub(crate) struct Item {
    pub(crate) name: Text,
    pub(crate) n: u64,
}

impl fmt::Display for Item {
    fn fmt<W: fmt::Write>(&self, f: &mut fmt::Formatter<W>) -> fmt::Result {
        write!(f, "{} {}", self.name, self.n)
    }
}

/// The name in an object.
fn json_name(alloc: Global, value: &Value) -> Result<&str, Fail<ReadFault>> {
    let Some(name) = value.get("name") else {
        return Err(ReadFault::refusal(alloc, "missing name"));
    };
    match name.as_str() {
        Some(name) => Ok(name),
        None => Err(ReadFault::refusal(alloc, "name is no text")),
    }
}

/// The number in an object.
fn json_number(alloc: Global, value: &Value) -> Result<u64, Fail<ReadFault>> {
    let Some(n) = value.get("n") else {
        return Err(ReadFault::refusal(alloc, "missing n"));
    };
    match n.as_u64() {
        Some(n) => Ok(n),
        None => Err(ReadFault::refusal(alloc, "n is no whole number")),
    }
}

impl ReadJson for Item {
    ghost use Rattle.std.specs.Prelude.{⊤};

    ghost reads = { λ d x. ⊤ };

    fn read_json(alloc: Global, value: &Value) -> Result<Item, Fail<ReadFault>> {
        if !value.is_object() {
            return Err(ReadFault::refusal(alloc, "no object"));
        }
        let name = json_name(alloc, value)?;
        let n = json_number(alloc, value)?;
        Ok(Item {
            name: Text::of(alloc, name)?,
            n,
        })
    }
}

/// The value of a name that comes once, and the refusals where it comes not at all, and again.
fn one_value<'a>(
    alloc: Global,
    pairs: &'a [Pair],
    name: &str,
    missing: &str,
    twice: &str,
) -> Result<&'a str, Fail<ReadFault>> {
    let mut found: Option<&'a str> = None;
    for pair in pairs {
        if pair.name() == name {
            if found.is_some() {
                return Err(ReadFault::refusal(alloc, twice));
            }
            found = Some(pair.value());
        }
    }
    match found {
        Some(value) => Ok(value),
        None => Err(ReadFault::refusal(alloc, missing)),
    }
}

impl ReadPairs for Item {
    ghost use Rattle.std.specs.Prelude.{⊤};

    ghost reads_pairs = { λ pairs x. ⊤ };

    fn read_pairs(alloc: Global, pairs: &[Pair]) -> Result<Item, Fail<ReadFault>> {
        let name = one_value(alloc, pairs, "name", "missing name", "duplicate name")?;
        let n = one_value(alloc, pairs, "n", "missing n", "duplicate n")?;
        let Some(n) = read_digits(n, u64::MAX) else {
            return Err(ReadFault::refusal(alloc, "n is no number"));
        };
        Ok(Item {
            name: Text::of(alloc, name)?,
            n,
        })
    }
}

impl WriteJson for Item {
    ghost use Rattle.std.specs.Prelude.{⊤};

    ghost writes = { λ n x. ⊤ };

    fn write_json(&self, alloc: Global) -> Result<Value, Fail<WriteFault>> {
        Ok(json!(in alloc; {"name": self.name.as_str(), "n": self.n})?)
    }
}

/// A name with a value.
fn pair(alloc: Global, name: &str, value: &str) -> Result<Pair, Fail<WriteFault>> {
    Ok(Pair::new(alloc, name, value)?)
}

impl WritePairs for Item {
    ghost use Rattle.std.specs.Prelude.{⊤};

    ghost writes_pairs = { λ n x. ⊤ };

    fn write_pairs(&self, alloc: Global) -> Result<Vec<Pair>, Fail<WriteFault>> {
        let name = pair(alloc, "name", self.name.as_str())?;
        let n = pair(alloc, "n", &self.n.to_string(alloc)?)?;
        Ok(vec![in alloc; name, n]?)
    }
}

/// A value that is written with a float where it is below 9, and refused by its writer otherwise.
#[derive(Clone, Copy, Debug)]
pub(crate) struct Unwritten(pub u64);

impl WriteJson for Unwritten {
    ghost use Rattle.std.specs.Prelude.{⊤};

    ghost writes = { λ n x. ⊤ };

    fn write_json(&self, alloc: Global) -> Result<Value, Fail<WriteFault>> {
        if self.0 < 9 {
            Ok(json!(in alloc; [0.5])?)
        } else {
            Err(WriteFault::refusal(alloc, "too large"))
        }
    }
}

impl WritePairs for Unwritten {
    ghost use Rattle.std.specs.Prelude.{⊤};

    ghost writes_pairs = { λ n x. ⊤ };

    fn write_pairs(&self, alloc: Global) -> Result<Vec<Pair>, Fail<WriteFault>> {
        Err(WriteFault::refusal(alloc, "too large"))
    }
}
