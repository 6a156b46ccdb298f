//! What the layers of a request hold.
use crate::compare::assert_same;
use crate::layered_requests::{BARE, LayerRow, Limit, layered_request};
use std::alloc::Global;
use std::process::Abort;
use web_request::{Data, Duplicate};

/// Two layers, the outer one first; the name that is nearest, and the limit.
type Row = (LayerRow, LayerRow, Option<&'static str>, Option<u32>);

const LAYERS: &[Row] = &[
    (BARE, BARE, None, None),
    ((Some("a"), Some(1), None), BARE, Some("a"), Some(1)),
    (BARE, (Some("b"), Some(2), None), Some("b"), Some(2)),
    (
        (Some("a"), Some(1), None),
        (Some("b"), Some(2), None),
        Some("b"),
        Some(2),
    ),
    ((None, Some(1), None), (None, None, Some(9)), None, Some(1)),
    ((None, None, Some(8)), (None, None, Some(9)), None, Some(9)),
    ((None, None, Some(8)), BARE, None, Some(8)),
];

fn assert_layers(rt: &impl Abort, alloc: Global, row: &Row) {
    let request = layered_request(rt, alloc, row.0, row.1);
    let name = request.app_data::<&'static str>().copied();
    let limit = request.nearest_config::<Limit>().copied();
    assert_same(rt, (name, limit), (row.2, row.3));
}

#[test]
fn the_nearest_layer_decides(rt: HostRuntime) {
    for row in LAYERS {
        assert_layers(&rt, rt.alloc(), row);
    }
}

#[test]
fn data_is_shared(rt: HostRuntime) {
    let data = Data::new(rt.alloc(), 7u32).expect(&rt, "memory");
    let again = data.duplicate(rt.alloc()).expect(&rt, "memory");
    assert_same(&rt, (**data, **again, *again.get_ref()), (7, 7, 7));
    assert_same(&rt, *Data::from(again.into_inner()).get_ref(), 7);
}
