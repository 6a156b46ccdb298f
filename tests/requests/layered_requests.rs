//! An application with layers, and with numbers of its connections and of its requests.
use crate::requests::{head, started};
use std::alloc::Global;
use std::process::Abort;
use std::rc::Rc;
use web_body::Marks;
use web_request::{
    App, AppLayer, ConfigChoice, Data, Duplicate, Holds, HttpRequest, NoMemory, RequestHead,
    RequestParts,
};

/// A layer with a name, a limit of its own, and one that it shares.
#[derive(Drop)]
pub(crate) struct Layer {
    name: Option<&'static str>,
    limit: Option<u32>,
    shared_limit: Option<Data<u32>>,
}

impl AppLayer for Layer {}

impl Holds<&'static str> for Layer {
    ghost held = { λ layer. layer.name };

    fn held(&self) -> Option<&&'static str> {
        self.name.as_ref()
    }
}

/// The limits of layers.
pub(crate) struct Limit;

impl ConfigChoice<Layer> for Limit {
    type Config = u32;

    ghost own = { λ layer. layer.limit };

    ghost shared = { λ layer. layer.shared_limit };

    fn own(layer: &Layer) -> Option<&u32> {
        layer.limit.as_ref()
    }

    fn shared(layer: &Layer) -> Option<&u32> {
        match &layer.shared_limit {
            Some(shared) => Some(shared.get_ref()),
            None => None,
        }
    }
}

/// A number that a connection or a request has.
#[derive(Drop)]
pub(crate) struct Visits {
    pub(crate) count: u32,
}

impl Duplicate for Visits {
    fn duplicate(&self, _alloc: Global) -> Result<Visits, NoMemory> {
        Ok(Visits { count: self.count })
    }
}

impl Holds<u32> for Visits {
    ghost use Rattle.std.specs.Prelude.{Some};

    ghost held = { λ visits. Some visits.count };

    fn held(&self) -> Option<&u32> {
        Some(&self.count)
    }
}

/// The application.
pub(crate) struct Layered;

impl App for Layered {
    type Layer = Layer;

    type Local = Visits;

    type Conn = Visits;

    type Source = Marks;
}

/// The name of a layer, its own limit, and the one that it shares.
pub(crate) type LayerRow = (Option<&'static str>, Option<u32>, Option<u32>);

/// A layer that has nothing.
pub(crate) const BARE: LayerRow = (None, None, None);

fn new_layer(rt: &impl Abort, alloc: Global, row: LayerRow) -> Rc<Layer> {
    let shared_limit = match row.2 {
        Some(limit) => Some(Data::new(alloc, limit).expect(rt, "memory")),
        None => None,
    };
    let layer = Layer {
        name: row.0,
        limit: row.1,
        shared_limit,
    };
    Rc::new(alloc, layer).expect(rt, "memory")
}

/// A request of this head alone under these layers, the root layer first.
pub(crate) fn layered_request(
    rt: &impl Abort,
    alloc: Global,
    root: LayerRow,
    inner: LayerRow,
) -> HttpRequest<Layered> {
    let inner = new_layer(rt, alloc, inner);
    let parts = RequestParts {
        head: head(rt, alloc, "/"),
        params: Vec::new(alloc),
        layers: vec![in alloc; inner].expect(rt, "memory"),
        conn: None,
        local: None,
    };
    started(rt, alloc, new_layer(rt, alloc, root), parts)
}

/// A request of this head, with these numbers of its connection and its own.
pub(crate) fn visited_request(
    rt: &impl Abort,
    alloc: Global,
    head: RequestHead,
    conn: Option<u32>,
    local: Option<u32>,
) -> HttpRequest<Layered> {
    let conn = match conn {
        Some(count) => Some(Rc::new(alloc, Visits { count }).expect(rt, "memory")),
        None => None,
    };
    let parts = RequestParts {
        head,
        params: Vec::new(alloc),
        layers: Vec::new(alloc),
        conn,
        local: local.map(|count| Visits { count }),
    };
    started(rt, alloc, new_layer(rt, alloc, BARE), parts)
}
