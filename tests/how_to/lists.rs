//! A list in pages: `?page=N&size=M`.
use crate::compare::assert_same;
use crate::replies::replies;
use std::alloc::Global;
use web::codec::{ReadFault, ReadPairs, WriteData, field_or};
use web::text::Pair;
use web::{Error, Fail, HandlerService, HttpResponse, Items, Json, NoMemory, Query, Text};
use web_testing::TestRequest;

/// The most items of a page.
const MOST: usize = 50;

/// Which page is asked for: the first one, of ten items, where the query does not say it.
#[derive(Debug, Drop)]
struct Page {
    page: usize,
    size: usize,
}

impl ReadPairs for Page {
    fn read_pairs(alloc: Global, pairs: &[Pair]) -> Result<Page, Fail<ReadFault>> {
        let page = field_or(alloc, pairs, "page", 0)?;
        let size: usize = field_or(alloc, pairs, "size", 10)?;
        if size == 0 || size > MOST {
            return Err(ReadFault::refusal(alloc, "size: not in 1..=50"));
        }
        Ok(Page { page, size })
    }
}

/// The items of a page.
fn page_of<'a, T>(all: &'a [T], page: &Page) -> &'a [T] {
    let begin = page.page.saturating_mul(page.size).min(all.len());
    let end = begin.saturating_add(page.size).min(all.len());
    &all[begin..end]
}

/// The names of a page, as JSON.
fn list(
    alloc: Global,
    all: &[&'static str],
    query: Query<Page>,
) -> Result<Json<Items<Text>>, Fail<Error>> {
    let Query(page) = query;
    let mut names = Vec::new(alloc);
    for name in page_of(all, &page) {
        names.push(Text::of(alloc, *name)?)?;
    }
    Ok(Json(Items::of(names)))
}

#[test]
fn a_list_comes_in_pages(rt: HostRuntime) {
    let alloc = rt.alloc();
    let all = &["ada", "bob", "cy", "dan", "eve"];
    let mut site = HandlerService::immediate(|query| list(alloc, all, query));
    let requests = vec![in alloc;
        TestRequest::get(alloc, "/names"),
        TestRequest::get(alloc, "/names?size=2&page=1"),
        TestRequest::get(alloc, "/names?size=2&page=2"),
        TestRequest::get(alloc, "/names?size=2&page=99"),
        TestRequest::get(alloc, "/names?size=0"),
    ];
    let requests = requests.expect(&rt, "memory");
    let lines = replies(&rt, alloc, &mut site, requests, &[]);
    let expected = "\
        200 [\"ada\",\"bob\",\"cy\",\"dan\",\"eve\"]\n\
        200 [\"cy\",\"dan\"]\n\
        200 [\"eve\"]\n\
        200 []\n\
        400 Query deserialize error: size: not in 1..=50\n";
    assert_same(&rt, lines.as_str(), expected);
}
