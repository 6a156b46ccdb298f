//! An item that is written as JSON. It promises nothing: the tests compare what it does.
use serde_json::{Value, json};
use std::alloc::Global;
use web_codec::{WriteFault, WriteJson};
use web_texts::Fail;

/// A named number.
#[derive(Clone, Copy, Debug)]
pub(crate) struct Item {
    pub(crate) name: &'static str,
    pub(crate) n: u64,
}

impl WriteJson for Item {
    ghost use Rattle.std.specs.Prelude.{⊤};

    ghost writes = { λ n x. ⊤ };

    fn write_json(&self, alloc: Global) -> Result<Value, Fail<WriteFault>> {
        Ok(json!(in alloc; {"name": self.name, "n": self.n})?)
    }
}
