//! Why arguments are refused.
use http::StatusCode;
use std::borrow::Cow;
use std::fmt::{self, Display, Formatter};

/// The status and the text of the reply.
pub struct Refusal {
    pub status: StatusCode,
    pub text: Cow<'static, str>,
}

impl Refusal {
    pub fn new(status: StatusCode, text: impl Into<Cow<'static, str>>) -> Refusal {
        Refusal {
            status,
            text: text.into(),
        }
    }

    pub fn bad_request(text: impl Into<Cow<'static, str>>) -> Refusal {
        Refusal::new(StatusCode::BAD_REQUEST, text)
    }

    /// This refusal and another one: the status of this one, and the texts of both, one a line.
    pub fn and(self, other: Refusal) -> Refusal {
        Refusal::new(self.status, format!("{}\n{}", self.text, other.text))
    }

    /// What the demo's handler makes of it, where a layer has one.
    pub fn handled(self, has_handler: bool) -> Refusal {
        Refusal {
            status: if has_handler {
                StatusCode::IM_A_TEAPOT
            } else {
                self.status
            },
            text: self.text,
        }
    }
}

/// Why there is no body.
pub enum PayloadError {
    Overflow,
    UnknownLength,
    Coded,
    Failed,
}

impl Display for PayloadError {
    fn fmt(&self, f: &mut Formatter<'_>) -> fmt::Result {
        f.write_str(match self {
            PayloadError::Overflow => "payload reached its limit",
            PayloadError::UnknownLength => "payload length is unknown",
            PayloadError::Coded => "content coding is not supported",
            PayloadError::Failed => "payload read failed",
        })
    }
}

impl From<PayloadError> for Refusal {
    fn from(error: PayloadError) -> Self {
        let status = match error {
            PayloadError::Overflow => StatusCode::PAYLOAD_TOO_LARGE,
            _ => StatusCode::BAD_REQUEST,
        };
        Refusal::new(status, error.to_string())
    }
}

/// Why there is no item of a JSON body.
pub enum JsonError {
    MediaType,
    DeclaredTooLong { length: u64, limit: u64 },
    TooLong { limit: u64 },
    Payload(PayloadError),
    NoItem(&'static str),
}

impl Display for JsonError {
    fn fmt(&self, f: &mut Formatter<'_>) -> fmt::Result {
        match self {
            JsonError::MediaType => f.write_str("Content type error"),
            JsonError::DeclaredTooLong { length, limit } => write!(
                f,
                "JSON payload ({length} bytes) is larger than allowed (limit: {limit} bytes)."
            ),
            JsonError::TooLong { limit } => {
                write!(f, "JSON payload has exceeded limit ({limit} bytes).")
            }
            JsonError::Payload(error) => {
                write!(f, "Error that occur during reading payload: {error}")
            }
            JsonError::NoItem(fault) => write!(f, "Json deserialize error: {fault}"),
        }
    }
}

impl From<JsonError> for Refusal {
    fn from(error: JsonError) -> Self {
        let status = match error {
            JsonError::DeclaredTooLong { .. } | JsonError::TooLong { .. } => {
                StatusCode::PAYLOAD_TOO_LARGE
            }
            _ => StatusCode::BAD_REQUEST,
        };
        Refusal::new(status, error.to_string())
    }
}

/// Why there is no item of a form.
pub enum FormError {
    MediaType,
    UnknownLength,
    TooLong { length: u64, limit: u64 },
    Payload(PayloadError),
    NoItem(&'static str),
}

impl Display for FormError {
    fn fmt(&self, f: &mut Formatter<'_>) -> fmt::Result {
        match self {
            FormError::MediaType => f.write_str("Content type error."),
            FormError::UnknownLength => f.write_str("Payload size is now known."),
            FormError::TooLong { length, limit } => write!(
                f,
                "URL encoded payload is larger ({length} bytes) than allowed (limit: {limit} bytes)."
            ),
            FormError::Payload(error) => {
                write!(f, "Error that occur during reading payload: {error}.")
            }
            FormError::NoItem(fault) => write!(f, "Parse error: {fault}."),
        }
    }
}

impl From<FormError> for Refusal {
    fn from(error: FormError) -> Self {
        let status = match error {
            FormError::MediaType => StatusCode::UNSUPPORTED_MEDIA_TYPE,
            FormError::UnknownLength => StatusCode::LENGTH_REQUIRED,
            FormError::TooLong { .. } => StatusCode::PAYLOAD_TOO_LARGE,
            FormError::Payload(_) | FormError::NoItem(_) => StatusCode::BAD_REQUEST,
        };
        Refusal::new(status, error.to_string())
    }
}
