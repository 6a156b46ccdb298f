//! Bodies as arguments, under the configurations of layers.
use crate::arguments::value_of;
use crate::compare::assert_same;
use crate::requests::request;
use bytes::Bytes;
use std::alloc::Global;
use std::process::Abort;
use web_body::{Marks, Payload, PayloadConfig};
use web_extract::{Configs, FromRequest, LayerConfigs, NoHandler, NoType};
use web_request::{App, AppLayer, Data, HttpRequest, NoData};

/// A layer that may have a configuration of payloads, and one that it shares.
#[derive(Drop)]
struct BodyLayer {
    payload: Option<PayloadConfig>,
    shared_payload: Option<Data<PayloadConfig>>,
}

impl AppLayer for BodyLayer {}

impl Configs for BodyLayer {
    ghost use Rattle.web_extract.specs.LayerConfigurations.{holds_nothing};

    type OnJson = NoHandler;

    type OnForm = NoHandler;

    type OnPath = NoHandler;

    type OnQuery = NoHandler;

    type JsonType = NoType;

    ghost configurations = { λ layer. record (holds_nothing) {
      payload = layer.payload;
      shared_payload = layer.shared_payload;
    } };

    fn configurations(
        &self,
    ) -> LayerConfigs<'_, NoHandler, NoHandler, NoHandler, NoHandler, NoType> {
        LayerConfigs {
            payload: self.payload.as_ref(),
            shared_payload: self.shared_payload.as_ref(),
            ..LayerConfigs::none()
        }
    }
}

/// An application with these layers.
struct Limited;

impl App for Limited {
    type Layer = BodyLayer;

    type Local = NoData;

    type Conn = NoData;

    type Source = Marks;
}

/// The limit of a layer's own configuration, that of the one that it shares, and whether a body of
/// three bytes is read.
const LIMITS: &[(Option<usize>, Option<usize>, bool)] = &[
    (None, None, true),
    (Some(2), None, false),
    (Some(2), Some(9), false),
    (Some(3), Some(2), true),
    (None, Some(2), false),
    (None, Some(3), true),
];

fn new_config(limit: Option<usize>) -> Option<PayloadConfig> {
    match limit {
        Some(limit) => Some(PayloadConfig::new(limit)),
        None => None,
    }
}

/// A layer with configurations of these limits.
fn new_layer(
    rt: &impl Abort,
    alloc: Global,
    own: Option<usize>,
    shared: Option<usize>,
) -> BodyLayer {
    let shared_payload = match new_config(shared) {
        Some(config) => Some(Data::new(alloc, config).expect(rt, "memory")),
        None => None,
    };
    BodyLayer {
        payload: new_config(own),
        shared_payload,
    }
}

/// Whether the argument is made of the body `abc`.
fn is_read<A: App, T: FromRequest<A>>(
    rt: &impl Abort,
    alloc: Global,
    request: &HttpRequest<A>,
) -> bool {
    let mut payload = Payload::Whole(Bytes::from_static(b"abc"));
    let future = T::from_request(alloc, request, &mut payload).expect(rt, "memory");
    value_of(rt, alloc, future).1.is_ok()
}

/// Whether both arguments are made of the body `abc` under this layer.
fn are_read<A: App, T: FromRequest<A>, U: FromRequest<A>>(
    rt: &impl Abort,
    alloc: Global,
    root: A::Layer,
) -> (bool, bool) {
    let request = request::<A>(rt, alloc, root);
    (
        is_read::<A, T>(rt, alloc, &request),
        is_read::<A, U>(rt, alloc, &request),
    )
}

#[test]
fn a_layer_limits_bodies(rt: HostRuntime) {
    for (own, shared, expected) in LIMITS {
        let layer = new_layer(&rt, rt.alloc(), *own, *shared);
        let found = are_read::<Limited, Bytes, String>(&rt, rt.alloc(), layer);
        assert_same(&rt, found, (*expected, *expected));
    }
}
