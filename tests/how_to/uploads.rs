//! A file of a form.
use crate::compare::assert_same;
use crate::replies::replies;
use std::alloc::Global;
use std::process::Abort;
use web::multipart::{Multipart, Part};
use web::status::ErrorBadRequest;
use web::{Error, Fail, HandlerService, StatusCode, Text};
use web_testing::TestRequest;

/// The first part of a form that has this name.
fn part_named<'a>(parts: &'a [Part], name: &str) -> Option<&'a Part> {
    parts.iter().find(|part| part.name.as_str() == name)
}

/// Takes the file of the field `file`, of at most 4 bytes, and responds with its size.
fn receive(alloc: Global, form: Multipart<4>) -> Result<(Text, StatusCode), Fail<Error>> {
    let Some(file) = part_named(form.parts(), "file") else {
        return Err(Fail::Of(ErrorBadRequest(alloc, "a file is missing")?));
    };
    let text = format!(in alloc; "{} bytes", file.body.len())?;
    Ok((Text::from(text), StatusCode::CREATED))
}

/// A form of one part without a media type.
fn form(rt: &impl Abort, alloc: Global, name: &str, content: &str) -> TestRequest {
    let body = format!(in alloc;
        "--x\r\nContent-Disposition: form-data; name=\"{name}\"\r\n\r\n{content}\r\n--x--\r\n"
    );
    TestRequest::post(alloc, "/upload")
        .header("content-type", "multipart/form-data; boundary=x")
        .body(body.expect(rt, "memory").as_bytes())
}

#[test]
fn a_file_is_received(rt: HostRuntime) {
    let alloc = rt.alloc();
    let mut site = HandlerService::immediate(|form| receive(alloc, form));
    let requests = vec![in alloc;
        form(&rt, alloc, "file", "abcd"),
        form(&rt, alloc, "other", "abcd"),
        form(&rt, alloc, "file", "abcde"),
        TestRequest::post(alloc, "/upload").body(b"abcd"),
    ];
    let requests = requests.expect(&rt, "memory");
    let lines = replies(&rt, alloc, &mut site, requests, &[]);
    let expected = "\
        201 4 bytes\n\
        400 a file is missing\n\
        413 part reached its limit\n\
        415 multipart type or boundary is missing\n";
    assert_same(&rt, lines.as_str(), expected);
}
