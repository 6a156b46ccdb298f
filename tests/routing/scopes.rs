//! Services whose requests have a layer of their own.
use crate::compare::assert_same;
use crate::replies::replies;
use std::alloc::Global;
use std::process::Abort;
use std::rc::Rc;
use web_body::{Marks, PayloadConfig};
use web_reply::Error;
use web_request::NoData;
use web_routing::{HandlerService, PathIs, PlainScope, Route, Scope, ScopedApp};
use web_testing::TestRequest;
use web_texts::Fail;

/// An application with scopes that hold no value of its own.
type Limited = ScopedApp<NoData, Marks>;

/// A scope with this limit of bodies.
fn limited(rt: &impl Abort, alloc: Global, limit: usize) -> Rc<PlainScope<NoData>> {
    let scope = PlainScope {
        payload: Some(PayloadConfig::new(limit)),
        ..PlainScope::new(NoData)
    };
    Rc::new(alloc, scope).expect(rt, "memory")
}

fn echo(text: String) -> Result<String, Fail<Error>> {
    Ok(text)
}

#[test]
fn a_scope_has_a_limit_of_its_own(rt: HostRuntime) {
    let alloc = rt.alloc();
    let small = HandlerService::immediate(|text| echo(text));
    let mut site = Route::new(
        PathIs("/small"),
        Scope::new(limited(&rt, alloc, 2), small),
        HandlerService::immediate(|text| echo(text)),
    );
    let requests = vec![in alloc;
        TestRequest::post(alloc, "/small").body(b"ab"),
        TestRequest::post(alloc, "/small").body(b"abc"),
        TestRequest::post(alloc, "/large").body(b"abc"),
    ];
    let requests = requests.expect(&rt, "memory");
    let root = PlainScope::new(NoData);
    let lines = replies::<Limited, _>(&rt, alloc, root, &mut site, requests);
    let expected = "\
        200 - ab\n\
        413 - payload reached its limit\n\
        200 - abc\n";
    assert_same(&rt, lines.as_str(), expected);
}
