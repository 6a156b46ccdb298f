//! Layers of configuration.
use crate::text::number;
use mime::Mime;

/// What one line configures.
#[derive(Default)]
pub struct Layer {
    pub payload: Option<PayloadConfig>,
    pub shared_payload: Option<PayloadConfig>,
    pub json: Option<JsonConfig>,
    pub form: Option<FormConfig>,
    pub has_path_handler: bool,
    pub has_query_handler: bool,
    /// No segment that is written here asks for it.
    number: Option<u64>,
}

/// How a body is read: up to this limit, and where a type is required, only with it.
pub struct PayloadConfig {
    pub limit: u64,
    pub required: Option<Mime>,
}

/// How a JSON body is read.
#[derive(Clone, Copy)]
pub struct JsonConfig {
    pub limit: u64,
    pub needs_type: bool,
    /// `text/x-json` is a type of JSON too.
    pub allows_vendor: bool,
    /// The demo's handler answers refusals.
    pub has_handler: bool,
}

/// How a form is read.
#[derive(Clone, Copy)]
pub struct FormConfig {
    pub limit: u64,
    pub has_handler: bool,
}

impl PayloadConfig {
    pub const DEFAULT: PayloadConfig = PayloadConfig {
        limit: 262_144,
        required: None,
    };
}

impl Default for JsonConfig {
    fn default() -> Self {
        JsonConfig {
            limit: 2_097_152,
            needs_type: true,
            allows_vendor: false,
            has_handler: false,
        }
    }
}

impl Default for FormConfig {
    fn default() -> Self {
        FormConfig {
            limit: 16_384,
            has_handler: false,
        }
    }
}

impl Layer {
    /// Reads settings with one space between.
    pub fn read(argument: &[u8]) -> Option<Layer> {
        let mut layer = Layer::default();
        for setting in std::str::from_utf8(argument).ok()?.split(' ') {
            match setting.split_once('=') {
                Some(("mime", value)) => layer.payload().required = Some(value.parse().ok()?),
                Some((name, value)) => layer.set(name, number(value.as_bytes(), u64::MAX)?)?,
                None => layer.switch(setting)?,
            }
        }
        Some(layer)
    }

    fn set(&mut self, name: &str, value: u64) -> Option<()> {
        match name {
            "payload" => self.payload().limit = value,
            "shared-payload" => {
                self.shared_payload = Some(PayloadConfig {
                    limit: value,
                    required: None,
                });
            }
            "json" => self.json().limit = value,
            "form" => self.form().limit = value,
            "number" => self.number = Some(value),
            _ => return None,
        }
        Some(())
    }

    fn switch(&mut self, name: &str) -> Option<()> {
        match name {
            "json-any" => self.json().needs_type = false,
            "json-vendor" => self.json().allows_vendor = true,
            "json-teapot" => self.json().has_handler = true,
            "form-teapot" => self.form().has_handler = true,
            "path-teapot" => self.has_path_handler = true,
            "query-teapot" => self.has_query_handler = true,
            _ => return None,
        }
        Some(())
    }

    fn payload(&mut self) -> &mut PayloadConfig {
        self.payload.get_or_insert(PayloadConfig::DEFAULT)
    }

    fn json(&mut self) -> &mut JsonConfig {
        self.json.get_or_insert_default()
    }

    fn form(&mut self) -> &mut FormConfig {
        self.form.get_or_insert_default()
    }
}
