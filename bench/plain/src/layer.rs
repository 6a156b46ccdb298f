//! Layers of configuration.
use crate::media_type::{self, MediaType};
use crate::text::number;

/// What one line configures.
#[derive(Default)]
pub struct Layer<'a> {
    payload: Option<u64>,
    media_type: Option<MediaType<'a>>,
    shared_payload: Option<u64>,
    json: Option<JsonConfig>,
    form: Option<FormConfig>,
    has_path_handler: bool,
    has_query_handler: bool,
    number: Option<u64>,
}

/// How a body is read: up to this limit, and where a type is required, only with it.
#[derive(Clone, Copy)]
pub struct PayloadConfig<'a> {
    pub limit: u64,
    pub required: Option<&'a MediaType<'a>>,
}

/// How a JSON body is read.
#[derive(Clone, Copy)]
pub struct JsonConfig {
    pub limit: u64,
    pub needs_type: bool,
    /// `text/x-json` is a type of JSON too.
    pub allows_vendor: bool,
    /// The demo's handler answers refusals.
    pub has_handler: bool,
}

/// How a form is read.
#[derive(Clone, Copy)]
pub struct FormConfig {
    pub limit: u64,
    pub has_handler: bool,
}

impl Default for PayloadConfig<'_> {
    fn default() -> Self {
        PayloadConfig {
            limit: 262_144,
            required: None,
        }
    }
}

impl Default for JsonConfig {
    fn default() -> Self {
        JsonConfig {
            limit: 2_097_152,
            needs_type: true,
            allows_vendor: false,
            has_handler: false,
        }
    }
}

impl Default for FormConfig {
    fn default() -> Self {
        FormConfig {
            limit: 16_384,
            has_handler: false,
        }
    }
}

impl<'a> Layer<'a> {
    /// Reads settings with one space between.
    pub fn read(argument: &'a [u8]) -> Option<Layer<'a>> {
        let mut layer = Layer::default();
        for setting in argument.split(|byte| *byte == b' ') {
            match setting.iter().position(|byte| *byte == b'=') {
                Some(at) => layer.set(&setting[..at], &setting[at + 1..])?,
                None => layer.switch(setting)?,
            }
        }
        Some(layer)
    }

    fn set(&mut self, name: &[u8], value: &'a [u8]) -> Option<()> {
        if name == b"mime" {
            let text = std::str::from_utf8(value).ok()?;
            self.media_type = Some(media_type::read(text.as_bytes())?);
            return Some(());
        }
        let value = number(value, u64::MAX)?;
        match name {
            b"payload" => self.payload = Some(value),
            b"shared-payload" => self.shared_payload = Some(value),
            b"json" => self.json().limit = value,
            b"form" => self.form().limit = value,
            b"number" => self.number = Some(value),
            _ => return None,
        }
        Some(())
    }

    fn switch(&mut self, name: &[u8]) -> Option<()> {
        match name {
            b"json-any" => self.json().needs_type = false,
            b"json-vendor" => self.json().allows_vendor = true,
            b"json-teapot" => self.json().has_handler = true,
            b"form-teapot" => self.form().has_handler = true,
            b"path-teapot" => self.has_path_handler = true,
            b"query-teapot" => self.has_query_handler = true,
            _ => return None,
        }
        Some(())
    }

    fn json(&mut self) -> &mut JsonConfig {
        self.json.get_or_insert_default()
    }

    fn form(&mut self) -> &mut FormConfig {
        self.form.get_or_insert_default()
    }

    fn own(&self) -> Option<PayloadConfig<'_>> {
        if self.payload.is_none() && self.media_type.is_none() {
            return None;
        }
        Some(PayloadConfig {
            limit: self.payload.unwrap_or(PayloadConfig::default().limit),
            required: self.media_type.as_ref(),
        })
    }

    fn shared(&self) -> Option<PayloadConfig<'_>> {
        let limit = self.shared_payload?;
        Some(PayloadConfig {
            limit,
            required: None,
        })
    }
}

/// The layers of a request. The nearest one stands last.
#[derive(Default)]
pub struct Layers<'a>(pub Vec<Layer<'a>>);

impl<'a> Layers<'a> {
    /// What the nearest layer has that has it.
    fn nearest<'s, T>(&'s self, own: impl FnMut(&'s Layer<'a>) -> Option<T>) -> Option<T> {
        self.0.iter().rev().find_map(own)
    }

    /// The nearest layer's own configuration, else the nearest layer's shared one, else the default.
    pub fn payload(&self) -> PayloadConfig<'_> {
        self.nearest(Layer::own)
            .or_else(|| self.nearest(Layer::shared))
            .unwrap_or_default()
    }

    pub fn json(&self) -> JsonConfig {
        self.nearest(|layer| layer.json).unwrap_or_default()
    }

    pub fn form(&self) -> FormConfig {
        self.nearest(|layer| layer.form).unwrap_or_default()
    }

    pub fn has_path_handler(&self) -> bool {
        self.0.iter().any(|layer| layer.has_path_handler)
    }

    pub fn has_query_handler(&self) -> bool {
        self.0.iter().any(|layer| layer.has_query_handler)
    }

    pub fn number(&self) -> Option<u64> {
        self.nearest(|layer| layer.number)
    }
}
