//! A handler of refusals. It promises nothing: the tests compare what it does.
use http::StatusCode;
use std::alloc::Global;
use std::fmt;
use web_body::{PathError, QueryPayloadError};
use web_extract::Refuse;
use web_reply::{Cause, Error};
use web_request::{NoMemory, RequestHead};
use web_texts::Text;

/// A handler that answers each refusal with status 418 and the refusal's text.
#[derive(Drop)]
pub(crate) struct Teapot;

fn teapot_error<E: fmt::Display>(alloc: Global, fault: &E) -> Result<Error, NoMemory> {
    let text = Text::from(fault.to_string(alloc)?);
    Ok(Error::from(Cause::Custom {
        status: StatusCode::IM_A_TEAPOT,
        text,
    }))
}

impl Refuse<PathError> for Teapot {
    fn refuse(
        &self,
        alloc: Global,
        fault: PathError,
        _head: &RequestHead,
    ) -> Result<Error, NoMemory> {
        teapot_error(alloc, &fault)
    }
}

impl Refuse<QueryPayloadError> for Teapot {
    fn refuse(
        &self,
        alloc: Global,
        fault: QueryPayloadError,
        _head: &RequestHead,
    ) -> Result<Error, NoMemory> {
        teapot_error(alloc, &fault)
    }
}
