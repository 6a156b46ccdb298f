//! Accept-Encoding, and the coding to send.
use crate::map::{Header, Headers};
use crate::quality;

/// What a client accepts, and the coding that is negotiated.
pub struct AcceptEncoding(Vec<Item>);

struct Item {
    preference: Preference,
    /// Thousandths.
    quality: u16,
}

enum Preference {
    Any,
    Coding(Coding),
}

/// Codings from the one that compresses least to the one that compresses most.
#[derive(Clone, PartialEq, Eq)]
enum Coding {
    Identity,
    Unknown(String),
    Deflate,
    Gzip,
    Zstd,
    Brotli,
}

/// The codings that can be made.
const SUPPORTED: [Coding; 4] = [Coding::Brotli, Coding::Zstd, Coding::Gzip, Coding::Identity];

impl Coding {
    fn read(text: &str) -> Coding {
        const KNOWN: [Coding; 5] = [
            Coding::Identity,
            Coding::Brotli,
            Coding::Deflate,
            Coding::Gzip,
            Coding::Zstd,
        ];
        let known = KNOWN
            .into_iter()
            .find(|coding| text.eq_ignore_ascii_case(coding.name()));
        known.unwrap_or_else(|| Coding::Unknown(text.to_owned()))
    }

    fn name(&self) -> &str {
        match self {
            Coding::Identity => "identity",
            Coding::Unknown(name) => name,
            Coding::Deflate => "deflate",
            Coding::Gzip => "gzip",
            Coding::Zstd => "zstd",
            Coding::Brotli => "br",
        }
    }

    fn rank(&self) -> u8 {
        match self {
            Coding::Identity => 0,
            Coding::Unknown(_) => 1,
            Coding::Deflate => 2,
            Coding::Gzip => 3,
            Coding::Zstd => 4,
            Coding::Brotli => 5,
        }
    }
}

impl Item {
    fn read(text: &str) -> Option<Item> {
        let (text, quality) = quality::split(text)?;
        let preference = match text {
            "*" => Preference::Any,
            _ => Preference::Coding(Coding::read(text)),
        };
        Some(Item {
            preference,
            quality,
        })
    }

    fn is_identity(&self) -> bool {
        matches!(self.preference, Preference::Coding(Coding::Identity))
    }

    fn is_any(&self) -> bool {
        matches!(self.preference, Preference::Any)
    }

    /// Quality and rank of a coding that is accepted and can be made, and the coding.
    fn supported(&self) -> Option<((u16, u8), &Coding)> {
        match &self.preference {
            Preference::Coding(coding) if self.quality > 0 && SUPPORTED.contains(coding) => {
                Some(((self.quality, coding.rank()), coding))
            }
            _ => None,
        }
    }
}

impl AcceptEncoding {
    /// The coding to send, `None` where none is acceptable.
    fn negotiated(&self) -> Option<Coding> {
        let supported = self.0.iter().rev().filter_map(Item::supported);
        if let Some((_, coding)) = supported.max_by_key(|found| found.0) {
            return Some(coding.clone());
        }
        self.accepts_identity().then_some(Coding::Identity)
    }

    fn accepts_identity(&self) -> bool {
        let is_wanted = |item: &Item| item.quality > 0;
        if self.0.iter().any(Item::is_identity) {
            return self
                .0
                .iter()
                .any(|item| item.is_identity() && is_wanted(item));
        }
        let mut any = self.0.iter().filter(|item| item.is_any()).peekable();
        any.peek().is_none() || any.any(is_wanted)
    }
}

impl Header for AcceptEncoding {
    fn read(headers: &Headers) -> Option<Self> {
        headers
            .read_list("accept-encoding", |text| text.split(','), Item::read)
            .map(AcceptEncoding)
    }

    fn print(&self, out: &mut String) {
        out.push_str(self.negotiated().as_ref().map_or("none", Coding::name));
    }
}
