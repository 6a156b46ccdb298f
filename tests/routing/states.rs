//! A service that keeps a list from one request to the next.
use crate::compare::assert_same;
use crate::replies::replies;
use http::Method;
use std::alloc::Global;
use web_body::Marks;
use web_request::{NoData, PlainApp};
use web_routing::{StateHandler, StateService};
use web_testing::TestRequest;
use web_texts::NoMemory;

/// The names that were sent, each with a space behind it.
#[derive(Drop)]
struct Names {
    all: String,
}

impl StateHandler<(Method, String)> for Names {
    ghost use Rattle.std.specs.Prelude.{⊤};

    type Output = String;

    ghost replies = { λ a v x b. ⊤ };

    fn reply(&mut self, alloc: Global, args: (Method, String)) -> Result<String, NoMemory> {
        let (method, name) = args;
        if method == Method::POST {
            self.all.push_str(name.as_str())?;
            self.all.push_str(" ")?;
        }
        Ok(format!(in alloc; "{}", self.all.as_str())?)
    }
}

#[test]
fn a_request_is_shown_what_those_before_it_left(rt: HostRuntime) {
    let alloc = rt.alloc();
    let names = Names {
        all: String::new(alloc),
    };
    let mut service = StateService::<(Method, String), _>::new(names);
    let requests = vec![in alloc;
        TestRequest::get(alloc, "/"),
        TestRequest::post(alloc, "/").body(b"Ada"),
        TestRequest::post(alloc, "/").body(b"\xff"),
        TestRequest::post(alloc, "/").body(b"Grace"),
        TestRequest::get(alloc, "/"),
    ];
    let requests = requests.expect(&rt, "memory");
    let lines = replies::<PlainApp<Marks>, _>(&rt, alloc, NoData, &mut service, requests);
    let expected = "\
        200 - \n\
        200 - Ada \n\
        400 - Can not decode body\n\
        200 - Ada Grace \n\
        200 - Ada Grace \n";
    assert_same(&rt, lines.as_str(), expected);
}
