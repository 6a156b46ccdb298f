//! What an outcome has.
use crate::compare::assert_same;
use crate::replies::Site;
use std::alloc::Global;
use std::str;
use web::testing::{TestRequest, test_worker};
use web::{
    BoxBody, Error, Fail, HandlerService, HttpResponse, Marks, NoData, NoMemory, Outcome, Text,
    serve_to_end,
};

/// The status, the headers and the text of a reply, in lines.
fn reply_lines(alloc: Global, reply: &HttpResponse<BoxBody<Marks>>) -> Result<String, NoMemory> {
    let mut lines = String::new(alloc);
    writeln!(lines, "{}", reply.status())?;
    for (name, value) in reply.headers().iter() {
        writeln!(lines, "{name}: {}", value.to_str().unwrap_or("(no text)"))?;
    }
    if let BoxBody::Bytes(bytes) = reply.body() {
        let text = str::from_utf8(bytes.as_slice()).unwrap_or("(no text)");
        writeln!(lines, "{text}")?;
    }
    Ok(lines)
}

fn hello(alloc: Global) -> Result<Text, Fail<Error>> {
    Ok(Text::of(alloc, "hello")?)
}

#[test]
fn a_reply_has_lines(rt: HostRuntime) {
    let alloc = rt.alloc();
    let mut worker = test_worker::<Site>(alloc, NoData).expect(&rt, "memory");
    let mut service = HandlerService::immediate(|_none: ()| hello(alloc));
    let exchange = TestRequest::get(alloc, "/").into_exchange::<Site>();
    let exchange = exchange.expect(&rt, "a request");
    let outcome = serve_to_end(alloc, &mut worker, &mut service, exchange, 1);
    let Outcome::Reply(reply) = outcome else {
        assert!(rt; false);
        return;
    };
    let lines = reply_lines(alloc, &reply).expect(&rt, "memory");
    let expected = "200 OK\ncontent-type: text/plain; charset=utf-8\nhello\n";
    assert_same(&rt, lines.as_str(), expected);
}
