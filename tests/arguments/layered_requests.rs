//! An application whose layers have a number, and handlers of refused paths and queries.
use crate::requests::{Site, Visits, head, started};
use crate::teapot::Teapot;
use std::alloc::Global;
use std::process::Abort;
use std::rc::Rc;
use web_decoders::{PathConfig, QueryConfig};
use web_extract::{Configs, LayerConfigs, NoHandler, NoType};
use web_request::{AppLayer, Data, Holds, HttpRequest, Pair, RequestParts};

/// A layer with a number and handlers of refused paths and queries.
#[derive(Drop)]
pub(crate) struct Layer {
    pub(crate) number: Option<Data<u64>>,
    pub(crate) path: Option<PathConfig<Teapot>>,
    pub(crate) query: Option<QueryConfig<Teapot>>,
}

impl Layer {
    /// A layer that has nothing.
    pub(crate) fn new() -> Layer {
        Layer {
            number: None,
            path: None,
            query: None,
        }
    }
}

impl AppLayer for Layer {}

impl Holds<Data<u64>> for Layer {
    ghost held = { λ layer. layer.number };

    fn held(&self) -> Option<&Data<u64>> {
        self.number.as_ref()
    }
}

impl Configs for Layer {
    ghost use Rattle.web_extract.specs.LayerConfigurations.{holds_nothing};

    type OnJson = NoHandler;

    type OnForm = NoHandler;

    type OnPath = Teapot;

    type OnQuery = Teapot;

    type JsonType = NoType;

    ghost configurations = { λ layer.
        record (holds_nothing) { path = layer.path; query = layer.query } };

    fn configurations(&self) -> LayerConfigs<'_, NoHandler, NoHandler, Teapot, Teapot, NoType> {
        LayerConfigs {
            path: self.path.as_ref(),
            query: self.query.as_ref(),
            ..LayerConfigs::none()
        }
    }
}

/// The application with these layers.
pub(crate) type Layered = Site<Layer>;

/// The target of a request, the parameters of its path, and the numbers of its data and of its
/// connection.
#[derive(Clone, Copy)]
pub(crate) struct Parts {
    pub(crate) target: &'static str,
    pub(crate) params: &'static [(&'static str, &'static str)],
    pub(crate) local: Option<u64>,
    pub(crate) conn: Option<u64>,
}

/// A request for this target, with nothing else.
pub(crate) const fn targeted(target: &'static str) -> Parts {
    Parts {
        target,
        params: &[],
        local: None,
        conn: None,
    }
}

/// A request for `/path` with these parameters.
pub(crate) fn with_params(params: &'static [(&'static str, &'static str)]) -> Parts {
    Parts {
        params,
        ..targeted("/path")
    }
}

fn pairs(rt: &impl Abort, alloc: Global, params: &[(&str, &str)]) -> Vec<Pair> {
    let mut pairs = Vec::new(alloc);
    for (name, value) in params {
        let pair = Pair::new(alloc, name, value).expect(rt, "memory");
        pairs.push(pair).ok().expect(rt, "memory");
    }
    pairs
}

/// The data of a connection with this number, if any.
fn connection(rt: &impl Abort, alloc: Global, number: Option<u64>) -> Option<Rc<Visits>> {
    match number {
        Some(count) => Some(Rc::new(alloc, Visits { count }).ok().expect(rt, "memory")),
        None => None,
    }
}

/// A request of these parts under two layers, the outer one first.
pub(crate) fn layered_request(
    rt: &impl Abort,
    alloc: Global,
    parts: &Parts,
    outer: Layer,
    inner: Layer,
) -> HttpRequest<Layered> {
    let inner = Rc::new(alloc, inner).ok().expect(rt, "memory");
    let parts = RequestParts {
        head: head(rt, alloc, parts.target),
        params: pairs(rt, alloc, parts.params),
        layers: vec![in alloc; inner].expect(rt, "memory"),
        conn: connection(rt, alloc, parts.conn),
        local: parts.local.map(|count| Visits { count }),
    };
    started(rt, alloc, outer, parts)
}
