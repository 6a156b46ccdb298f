//! Items of paths and queries as arguments, with and without a handler of refusals.
use crate::compare::assert_same;
use crate::item::Item;
use crate::layered_requests::{Layer, Layered, Parts, layered_request, targeted, with_params};
use crate::outcomes::assert_argument;
use crate::teapot::Teapot;
use std::alloc::Global;
use std::fmt::Display;
use std::process::Abort;
use web_decoders::{PathConfig, QueryConfig};
use web_extract::FromRequest;
use web_extract_head::{Path, Query};
use web_texts::{Duplicate, Text};

/// A status, and the text of an item or of a refusal.
type Expected = (u16, &'static str);

/// A layer with a handler of refused paths, and of refused queries.
fn teapots() -> Layer {
    let path: PathConfig<Teapot> = PathConfig::new();
    let query: QueryConfig<Teapot> = QueryConfig::new();
    Layer {
        path: Some(path.error_handler(Teapot)),
        query: Some(query.error_handler(Teapot)),
        ..Layer::new()
    }
}

/// Compares what a request of these parts gives under two layers, the outer one first.
fn assert_parts<T: FromRequest<Layered> + Display>(
    rt: &impl Abort,
    alloc: Global,
    parts: &Parts,
    layers: (Layer, Layer),
    expected: Expected,
) {
    let request = layered_request(rt, alloc, parts, layers.0, layers.1);
    assert_argument::<Layered, T>(rt, alloc, &request, expected);
}

#[test]
fn items_are_read_of_paths(rt: HostRuntime) {
    let alloc = rt.alloc();
    let parts = with_params(&[("name", "a%2Fb"), ("n", "%37")]);
    let plain = (Layer::new(), Layer::new());
    assert_parts::<Path<Item>>(&rt, alloc, &parts, plain, (200, "a/b 7"));
    let parts = with_params(&[("name", "a%2Fb")]);
    let plain = (Layer::new(), Layer::new());
    assert_parts::<Path<Item>>(&rt, alloc, &parts, plain, (404, "missing n"));
    let handled = (teapots(), Layer::new());
    let expected = (418, "Path deserialize error: missing n");
    assert_parts::<Path<Item>>(&rt, alloc, &parts, handled, expected);
}

#[test]
fn items_are_read_of_queries(rt: HostRuntime) {
    let alloc = rt.alloc();
    let plain = (Layer::new(), Layer::new());
    let parts = targeted("/?%6eame=%2541&n=007");
    assert_parts::<Query<Item>>(&rt, alloc, &parts, plain, (200, "%41 7"));
    let plain = (Layer::new(), Layer::new());
    let expected = "Query deserialize error: missing name";
    assert_parts::<Query<Item>>(&rt, alloc, &targeted("/query?n=7"), plain, (400, expected));
    let handled = (Layer::new(), teapots());
    assert_parts::<Query<Item>>(
        &rt,
        alloc,
        &targeted("/query?n=7"),
        handled,
        (418, expected),
    );
}

#[test]
fn a_path_is_its_value(rt: HostRuntime) {
    let mut path = Path::from(6u8);
    *path += 1;
    assert_same(&rt, (*path.as_ref(), *path), (7, 7));
    assert_same(&rt, &path, &Path::from(7));
    assert_same(&rt, path < Path::from(8), true);
    let text = path.to_string(rt.alloc()).expect(&rt, "memory");
    assert_same(&rt, (text.as_str(), path.into_inner()), ("7", 7));
}

#[test]
fn a_query_is_its_value(rt: HostRuntime) {
    let mut query = Query(6u8);
    *query += 1;
    assert_same(&rt, &query, &Query(7));
    assert_same(&rt, query.cmp(&Query(8)), std::cmp::Ordering::Less);
    let text = query.to_string(rt.alloc()).expect(&rt, "memory");
    assert_same(&rt, (text.as_str(), query.into_inner()), ("7", 7));
    let empty = Text::of(rt.alloc(), "").expect(&rt, "memory");
    let copy = Query(empty).duplicate(rt.alloc()).expect(&rt, "memory");
    assert_same(&rt, copy.as_str(), "");
}
