//! What a connection writes whose bytes come at once.
use crate::requests::worker;
use bytes::Bytes;
use std::alloc::Global;
use std::process::Abort;
use web_body::{Mark, Marks};
use web_http1::{Ended, serve_connection};
use web_messages::Limits;
use web_reply::{BoxBody, HttpResponse};
use web_request::{NoData, PlainApp};
use web_worker::{Handler, Worker};

/// How `serve_connection` ends over these bytes, and what it writes.
pub(crate) fn collected<H: Handler<Bytes, Output = HttpResponse<BoxBody<Marks>>>>(
    rt: &impl Abort,
    alloc: Global,
    bytes: &'static [u8],
    handler: &mut H,
) -> (Ended, Vec<u8>) {
    let mut worker: Worker<PlainApp<Marks>> = worker(rt, alloc, NoData);
    let marks = vec![in alloc; Mark::Piece(Bytes::from_static(bytes))];
    let mut source = Marks::new(marks.expect(rt, "memory"));
    let mut out = Vec::new(alloc);
    let limits = Limits::default();
    let ended = serve_connection(alloc, &mut worker, handler, limits, &mut source, &mut out);
    (ended, out)
}
