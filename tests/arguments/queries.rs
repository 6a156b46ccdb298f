//! Queries, read from texts, also from such as no target can have.
use crate::compare::assert_same;
use crate::item::Item;
use std::alloc::Global;
use std::process::Abort;
use web_extract_head::Query;
use web_texts::Fail;

/// The text of a query, and the item or why its reader refuses it.
type QueryRow = (&'static str, Result<(&'static str, u64), &'static str>);

const QUERIES: &[QueryRow] = &[
    ("%6eame=a%2Bb&n=14", Ok(("a+b", 14))),
    ("Name=a\rb&N=0", Err("missing name")),
    ("n=5 &name=a+b", Err("n is no number")),
];

/// Reads a query, and compares the item, or what the refusal says after its first words.
fn assert_query(rt: &impl Abort, alloc: Global, row: &QueryRow) {
    match (Query::<Item>::from_query(alloc, row.0), row.1) {
        (Ok(query), Ok(expected)) => assert_same(rt, (query.name.as_str(), query.n), expected),
        (Err(Fail::Of(fault)), Err(expected)) => {
            let text = fault.to_string(alloc).expect(rt, "memory");
            let found = text.as_str().strip_prefix("Query deserialize error: ");
            assert_same(rt, found, Some(expected));
        }
        _ => panic!(rt; "{}", row.0),
    }
}

#[test]
fn queries_are_read(rt: HostRuntime) {
    for row in QUERIES {
        assert_query(&rt, rt.alloc(), row);
    }
}
