//! JSON values and forms under a layer whose handlers and predicate are closures.
use crate::closure_layer::ClosureLayer;
use crate::item::Item;
use crate::outcomes::assert_first;
use crate::requests::{FORM, JSON, Site, body_request};
use http::StatusCode;
use std::alloc::Global;
use std::process::Abort;
use web_body::{JsonPayloadError, UrlencodedError};
use web_decoders::{ByFn, FormConfig, JsonConfig};
use web_extract::Configs;
use web_extract_body::{Form, Json};
use web_reply::{Cause, Error};
use web_request::{NoMemory, RequestHead};
use web_texts::{Mime, Text};

/// A layer and a request under it: whether handlers are set, the limit of both kinds of bodies,
/// whether JSON needs a media type, the Content-Type, the Content-Length, and the body. Then the
/// status and the text that come as JSON, and whether the payload is left; and the same as a form.
struct Row {
    handles: bool,
    limit: usize,
    needs_type: bool,
    content_type: Option<&'static [u8]>,
    content_length: Option<&'static [u8]>,
    body: &'static [u8],
    json: (u16, &'static str, bool),
    form: (u16, &'static str, bool),
}

/// The configuration of JSON bodies.
fn json_config<
    F: Fn(JsonPayloadError, &RequestHead) -> Result<Error, NoMemory> + Drop,
    P: Fn(&Mime) -> bool + Drop,
>(row: &Row, on_json: F, json_type: P) -> JsonConfig<ByFn<F>, ByFn<P>> {
    let config: JsonConfig<ByFn<F>, ByFn<P>> = JsonConfig::new();
    let config = config
        .limit(row.limit)
        .content_type_required(row.needs_type)
        .content_type(ByFn(json_type));
    if row.handles {
        config.error_handler(ByFn(on_json))
    } else {
        config
    }
}

/// The configuration of forms.
fn form_config<G: Fn(UrlencodedError, &RequestHead) -> Result<Error, NoMemory> + Drop>(
    row: &Row,
    on_form: G,
) -> FormConfig<ByFn<G>> {
    let config: FormConfig<ByFn<G>> = FormConfig::new();
    let config = config.limit(row.limit);
    if row.handles {
        config.error_handler(ByFn(on_form))
    } else {
        config
    }
}

/// Compares what comes of a row's request under a layer.
fn assert_layer<L: Configs>(rt: &impl Abort, alloc: Global, layer: L, row: &Row) {
    let request = body_request(rt, alloc, layer, [row.content_type, row.content_length]);
    assert_first::<Site<L>, Json<Item>>(rt, alloc, &request, row.body, row.json);
    assert_first::<Site<L>, Form<Item>>(rt, alloc, &request, row.body, row.form);
}

/// The error of a status with a text.
fn custom(status: StatusCode, text: Text) -> Error {
    Error::from(Cause::Custom { status, text })
}

const ITEM: &[u8] = b"{\"name\":\"ab\",\"n\":7}";

const BOTH_REFUSE_THE_TYPE: Row = Row {
    handles: true,
    limit: 99,
    needs_type: true,
    content_type: None,
    content_length: None,
    body: ITEM,
    json: (418, "Content type error", true),
    form: (409, "Content type error.", true),
};

const ROWS: &[Row] = &[
    BOTH_REFUSE_THE_TYPE,
    Row {
        content_type: Some(b"text/plain"),
        ..BOTH_REFUSE_THE_TYPE
    },
    Row {
        needs_type: false,
        json: (200, "ab 7", false),
        ..BOTH_REFUSE_THE_TYPE
    },
    Row {
        content_type: Some(b"text/x-json"),
        json: (200, "ab 7", false),
        ..BOTH_REFUSE_THE_TYPE
    },
    Row {
        content_type: JSON,
        body: b"{",
        json: (418, "Json deserialize error: no JSON", false),
        ..BOTH_REFUSE_THE_TYPE
    },
    Row {
        handles: false,
        limit: 4,
        content_type: JSON,
        content_length: Some(b"19"),
        json: (
            413,
            "JSON payload (19 bytes) is larger than allowed (limit: 4 bytes).",
            false,
        ),
        form: (415, "Content type error.", true),
        ..BOTH_REFUSE_THE_TYPE
    },
    Row {
        handles: false,
        limit: 4,
        content_type: JSON,
        json: (413, "JSON payload has exceeded limit (4 bytes).", false),
        form: (415, "Content type error.", true),
        ..BOTH_REFUSE_THE_TYPE
    },
    Row {
        content_type: FORM,
        body: b"name=ab&n=7",
        form: (200, "ab 7", false),
        ..BOTH_REFUSE_THE_TYPE
    },
    Row {
        content_type: FORM,
        content_length: Some(b"+1"),
        form: (409, "Payload size is now known.", true),
        ..BOTH_REFUSE_THE_TYPE
    },
    Row {
        handles: false,
        limit: 4,
        content_type: FORM,
        body: b"a=12345",
        json: (400, "Content type error", true),
        form: (
            413,
            "URL encoded payload is larger (7 bytes) than allowed (limit: 4 bytes).",
            false,
        ),
        ..BOTH_REFUSE_THE_TYPE
    },
    Row {
        content_type: FORM,
        body: b"n=7",
        form: (409, "Parse error: missing name.", false),
        ..BOTH_REFUSE_THE_TYPE
    },
];

/// Compares what comes of rows' requests under a layer of these closures.
fn assert_closures<
    F: Fn(JsonPayloadError, &RequestHead) -> Result<Error, NoMemory> + Drop,
    G: Fn(UrlencodedError, &RequestHead) -> Result<Error, NoMemory> + Drop,
    P: Fn(&Mime) -> bool + Drop,
>(rt: &impl Abort, alloc: Global, on_json: F, on_form: G, json_type: P, row: &Row) {
    let json = json_config(row, on_json, json_type);
    let form = form_config(row, on_form);
    assert_layer(rt, alloc, ClosureLayer { json, form }, row);
}

/// The closures answer the text of the refusal with the statuses 418 and 409, and read the media
/// type `text/x-json`.
fn assert_row(rt: &impl Abort, alloc: Global, row: &Row) {
    assert_closures(
        rt,
        alloc,
        move |fault: JsonPayloadError, _head: &RequestHead| {
            let text = Text::from(fault.to_string(alloc)?);
            Ok(custom(StatusCode::IM_A_TEAPOT, text))
        },
        move |fault: UrlencodedError, _head: &RequestHead| {
            let text = Text::from(fault.to_string(alloc)?);
            Ok(custom(StatusCode::CONFLICT, text))
        },
        |media_type: &Mime| media_type.essence() == "text/x-json",
        row,
    );
}

#[test]
fn closures_answer_refusals_and_allow_types(rt: HostRuntime) {
    let alloc = rt.alloc();
    for row in ROWS {
        assert_row(&rt, alloc, row);
    }
}
