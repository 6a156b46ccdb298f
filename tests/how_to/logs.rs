//! A line for each reply.
use crate::compare::assert_same;
use crate::replies::replies;
use std::alloc::Global;
use std::cell::Cell;
use std::rc::Rc;
use web::routing::Change;
use web::{
    App, BoxBody, Error, Fail, HandlerService, HttpMessage, HttpRequest, HttpResponse, NoMemory,
    Text, Wrap,
};
use web_testing::TestRequest;

/// Keeps a line for each reply: method, path and status.
#[derive(Drop)]
struct Logged {
    lines: Rc<Cell<String>>,
}

impl<A: App> Change<A> for Logged {
    ghost use Rattle.std.specs.Prelude.{⊤};

    ghost changes = { λ c q s r. ⊤ };

    fn change(
        &self,
        alloc: Global,
        request: &HttpRequest<A>,
        reply: &mut HttpResponse<BoxBody<A::Source>>,
    ) -> Result<(), NoMemory> {
        let mut lines = self.lines.replace(String::new(alloc));
        let status = reply.status().as_u16();
        writeln!(lines, "{} {} {status}", request.method(), request.path())?;
        self.lines.set(lines);
        Ok(())
    }
}

#[test]
fn each_reply_has_a_line(rt: HostRuntime) {
    let alloc = rt.alloc();
    let lines = Rc::new(alloc, Cell::new(String::new(alloc))).expect(&rt, "memory");
    let logged = Logged {
        lines: lines.clone().expect(&rt, "memory"),
    };
    let echo = HandlerService::immediate(|text: String| -> Result<String, Fail<Error>> {
        Ok(text)
    });
    let mut site = Wrap::new(echo, logged);
    let requests = vec![in alloc;
        TestRequest::post(alloc, "/echo?q=1").body(b"hello"),
        TestRequest::post(alloc, "/echo").body(b"\xff"),
    ];
    let requests = requests.expect(&rt, "memory");
    let found = replies(&rt, alloc, &mut site, requests, &[]);
    assert_same(&rt, found.as_str(), "200 hello\n400 Can not decode body\n");
    let text = lines.replace(String::new(alloc));
    assert_same(&rt, text.as_str(), "POST /echo 200\nPOST /echo 400\n");
}
