//! An ETag on a value of one's own, and 304 for a client that has it.
use crate::compare::assert_same;
use crate::replies::{Site, replies};
use std::alloc::Global;
use web::reply::BoxBody;
use web::status::prelude::*;
use web::{
    Error, Fail, HandlerService, HttpMessage, HttpRequest, HttpResponse, Json, Marks, NoMemory,
    Text,
};
use web_entities::{EntityTag, IfNoneMatch};
use web_testing::TestRequest;

/// A reply whose body is in memory.
type Reply = HttpResponse<BoxBody<Marks>>;

/// What is stored, and how often it was changed.
#[derive(Drop)]
struct Stored {
    version: u64,
    text: &'static str,
}

/// The tag of a version, as `"v7"`.
fn tag_of(alloc: Global, stored: &Stored) -> Result<EntityTag, NoMemory> {
    let text = Text::from(format!(in alloc; "v{}", stored.version)?);
    Ok(EntityTag::new_strong(text))
}

/// The value with its tag, or 304 for a client that has this version.
fn show(alloc: Global, request: &HttpRequest<Site>, stored: &Stored) -> Result<Reply, NoMemory> {
    let tag = tag_of(alloc, stored)?;
    if IfNoneMatch::lists(request.headers(), &tag) == Some(true) {
        return HttpResponse::NotModified(alloc)
            .set_header("etag", tag)?
            .take()
            .finish();
    }
    HttpResponse::Ok(alloc)
        .set_header("etag", tag)?
        .take()
        .json(&Text::of(alloc, stored.text)?)
}

#[test]
fn a_client_with_the_version_gets_304(rt: HostRuntime) {
    let alloc = rt.alloc();
    let stored = Stored {
        version: 7,
        text: "tea",
    };
    let mut site = HandlerService::immediate(|request: HttpRequest<Site>| -> Result<
        Reply,
        Fail<Error>,
    > { Ok(show(alloc, &request, &stored)?) });
    let requests = vec![in alloc;
        TestRequest::get(alloc, "/tea"),
        TestRequest::get(alloc, "/tea").header("if-none-match", "\"v7\""),
        TestRequest::get(alloc, "/tea").header("if-none-match", "\"v6\""),
    ];
    let requests = requests.expect(&rt, "memory");
    let lines = replies(&rt, alloc, &mut site, requests, &["etag"]);
    let expected = "\
        200 etag: \"v7\"; \"tea\"\n\
        304 etag: \"v7\"; \n\
        200 etag: \"v7\"; \"tea\"\n";
    assert_same(&rt, lines.as_str(), expected);
}
