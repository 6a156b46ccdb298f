//! Redirects and pages.
use crate::compare::assert_holds;
use crate::printed::assert_reply;
use crate::requests::new_request;
use http::StatusCode;
use std::alloc::Global;
use std::process::Abort;
use web_build::{Html, Redirect};
use web_reply::Responder;
use web_texts::{Duplicate, Text};

/// A change of a redirect.
#[derive(Clone, Copy)]
enum Change {
    None,
    Permanent,
    Temporary,
    SeeOther,
    Status(u16),
}

const REDIRECTS: &[(&str, Change, &str)] = &[
    ("/x", Change::None, "307; location: /x; empty"),
    ("/x", Change::Permanent, "308; location: /x; empty"),
    ("/x", Change::Temporary, "307; location: /x; empty"),
    ("/x", Change::SeeOther, "303; location: /x; empty"),
    ("/x", Change::Status(302), "302; location: /x; empty"),
    ("", Change::None, "307; location: ; empty"),
    ("a\nb", Change::None, "307; empty"),
    ("a\nb", Change::SeeOther, "303; empty"),
];

fn changed(redirect: Redirect, change: Change) -> Redirect {
    match change {
        Change::None => redirect,
        Change::Permanent => redirect.permanent(),
        Change::Temporary => redirect.temporary(),
        Change::SeeOther => redirect.see_other(),
        Change::Status(status) => match StatusCode::from_u16(status) {
            Ok(status) => redirect.using_status_code(status),
            Err(_) => redirect,
        },
    }
}

/// Compares the response of a redirect and of its duplicate.
fn assert_redirect(rt: &impl Abort, alloc: Global, target: &str, change: Change, expected: &str) {
    let request = new_request(rt, alloc, "/");
    let target = Text::of(alloc, target).expect(rt, "memory");
    let redirect = changed(Redirect::to(alloc, target).expect(rt, "memory"), change);
    let copy = redirect.duplicate(alloc).expect(rt, "memory");
    let reply = redirect.respond_to(alloc, &request).expect(rt, "memory");
    assert_reply(rt, alloc, reply, expected);
    let reply = copy.respond_to(alloc, &request).expect(rt, "memory");
    assert_reply(rt, alloc, reply, expected);
}

/// Compares the response of a page, and the page with its duplicate.
fn respond_page(rt: &impl Abort, alloc: Global) {
    let request = new_request(rt, alloc, "/");
    let page = Html::new(Text::of(alloc, "<p>x</p>").expect(rt, "memory"));
    let copy = page.duplicate(alloc).expect(rt, "memory");
    assert_holds(rt, "the copy is equal", page == copy);
    let reply = page.respond_to(alloc, &request).expect(rt, "memory");
    assert_reply(
        rt,
        alloc,
        reply,
        "200; content-type: text/html; charset=utf-8; bytes <p>x</p>",
    );
}

#[test]
fn redirects_lead_to_their_target(rt: HostRuntime) {
    for (target, change, expected) in REDIRECTS {
        assert_redirect(&rt, rt.alloc(), target, *change, expected);
    }
}

#[test]
fn a_page_is_html(rt: HostRuntime) {
    respond_page(&rt, rt.alloc());
}
