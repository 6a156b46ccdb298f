//! Usual tasks, each as short as it gets. DIFFERENCES counts their lines.
use crate::compare::assert_same;
use crate::replies::{Site, replies};
use serde::{Deserialize, Serialize};
use std::alloc::Global;
use std::fmt;
use std::process::Abort;
use web::header::{CACHE_CONTROL, HeaderValue};
use web::routing::{Change, Whole};
use web::testing::TestRequest;
use web::{
    App, BoxBody, Error, Fail, Form, HttpRequest, HttpResponse, Json, NoMemory, Path, Query,
    Router, Service, StatusCode, StatusError, Text, Typed, Wrap, get, handler, post, replied,
};

#[derive(Drop, Deserialize, Serialize)]
struct Item {
    name: String,
    count: u64,
}

fn give_back(item: Json<Typed<Item>>) -> Result<Json<Typed<Item>>, Fail<Error>> {
    Ok(item)
}

#[derive(Drop, Deserialize)]
struct Info {
    tag: String,
}

fn tagged(alloc: Global, args: (Path<u32>, Query<Typed<Info>>)) -> Result<String, Fail<Error>> {
    let (id, Query(info)) = args;
    Ok(format!(in alloc; "{} {}", id.into_inner(), info.0.tag)?)
}

#[derive(Drop, Deserialize)]
struct Login {
    name: String,
}

fn sign_in(alloc: Global, form: Form<Typed<Login>>) -> Result<String, Fail<Error>> {
    Ok(format!(in alloc; "hello {}", form.0.0.name)?)
}

#[derive(Debug, Clone, Copy)]
enum ShopError {
    Nothing,
    SoldOut,
}

impl fmt::Display for ShopError {
    fn fmt<W: fmt::Write>(&self, f: &mut fmt::Formatter<W>) -> fmt::Result {
        match self {
            ShopError::Nothing => f.write_str("order at least one"),
            ShopError::SoldOut => f.write_str("sold out"),
        }
    }
}

impl StatusError for ShopError {
    fn status(&self) -> StatusCode {
        match self {
            ShopError::Nothing => StatusCode::UNPROCESSABLE_ENTITY,
            ShopError::SoldOut => StatusCode::CONFLICT,
        }
    }
}

fn order(alloc: Global, count: Path<u64>) -> Result<Text, Fail<ShopError>> {
    match count.into_inner() {
        0 => Err(Fail::Of(ShopError::Nothing)),
        1..=9 => Ok(Text::of(alloc, "taken")?),
        _ => Err(Fail::Of(ShopError::SoldOut)),
    }
}

#[derive(Drop)]
struct Fresh;

impl<A: App> Change<A> for Fresh {
    ghost use Rattle.std.specs.Prelude.{⊤};

    ghost changes = { λ c q s r. ⊤ };

    fn change(
        &self,
        _alloc: Global,
        _request: &HttpRequest<A>,
        reply: &mut HttpResponse<BoxBody<A::Source>>,
    ) -> Result<(), NoMemory> {
        let value = HeaderValue::from_static("no-store");
        reply
            .headers_mut()
            .insert(CACHE_CONTROL, value)
            .map_err(|_| NoMemory)?;
        Ok(())
    }
}

fn nothing(_none: ()) -> Result<Option<String>, Fail<Error>> {
    Ok(None)
}

fn site(rt: &impl Abort, alloc: Global) -> impl Service<Site, Whole> {
    let routes = (
        (
            post("/items").to(|item| give_back(item)),
            get("/tags/{id}").to(move |args| tagged(alloc, args)),
        ),
        (
            post("/login").to(move |form| sign_in(alloc, form)),
            post("/orders/{count}").to(move |count| replied(alloc, order(alloc, count))),
        ),
    );
    let router = Router::new(alloc, routes, handler(|none| nothing(none)));
    Wrap::new(router.ok().expect(rt, "the routes"), Fresh)
}

#[test]
fn each_task_is_served(rt: HostRuntime) {
    let alloc = rt.alloc();
    let json = "application/json";
    let form = "application/x-www-form-urlencoded";
    let requests = vec![in alloc;
        TestRequest::post(alloc, "/items")
            .header("content-type", json)
            .body(b"{\"name\":\"tea\",\"count\":2}"),
        TestRequest::get(alloc, "/tags/7?tag=hot"),
        TestRequest::post(alloc, "/login")
            .header("content-type", form)
            .body(b"name=Ann"),
        TestRequest::post(alloc, "/orders/0"),
        TestRequest::post(alloc, "/orders/10"),
        TestRequest::get(alloc, "/nowhere"),
    ];
    let mut site = site(&rt, alloc);
    let requests = requests.expect(&rt, "memory");
    let lines = replies(&rt, alloc, &mut site, requests, &["cache-control"]);
    let expected = "\
        200 cache-control: no-store; {\"count\":2,\"name\":\"tea\"}\n\
        200 cache-control: no-store; 7 hot\n\
        200 cache-control: no-store; hello Ann\n\
        422 cache-control: no-store; order at least one\n\
        409 cache-control: no-store; sold out\n\
        404 cache-control: no-store; \n";
    assert_same(&rt, lines.as_str(), expected);
}
