//! The variants of `/variant`, by what a request accepts (RFC 9110, section 12.5).
use crate::headers::Headers;
use crate::language::{self, is_language};
use crate::media_type::{self, MediaType};
use crate::quality;
use crate::reply::{Body, Reply};
use crate::request::Request;
use crate::thousandths::GREATEST;
use std::borrow::Cow;
use std::sync::LazyLock;

struct Variant {
    media_type: MediaType<'static>,
    /// The media type as a header has it.
    content_type: &'static str,
    language: Option<String>,
    /// `None` is `identity`.
    coding: Option<String>,
    body: Vec<u8>,
}

/// The variants of a page. Replies borrow from it.
struct Variants {
    variants: Vec<Variant>,
}

/// The demo's variants, which are stored when one of them is asked for.
static VARIANTS: LazyLock<Variants> = LazyLock::new(|| Variants {
    variants: vec![
        Variant::of("text/html", Some("en"), None, b"hello"),
        Variant::of("text/html", Some("de"), None, b"hallo"),
        Variant::of("application/json", None, None, b"{}"),
        Variant::of("text/html", Some("en"), Some("gzip"), b"\x1f\x8b"),
    ],
});

/// For each variant a quality, in thousandths.
type Qualities = Vec<u16>;

/// The reply to a request for a variant.
pub fn reply(request: &Request<'_>) -> Reply<'static> {
    VARIANTS.reply(request)
}

impl Variants {
    fn reply(&self, request: &Request<'_>) -> Reply<'_> {
        let mut headers = Vec::with_capacity(4);
        headers.push(("vary", "accept, accept-language, accept-encoding".into()));
        let Some(variant) = self.chosen(&request.headers) else {
            return Reply {
                headers,
                ..Reply::empty(406)
            };
        };
        headers.push(("content-type", variant.content_type.into()));
        let (language, coding) = (variant.language.as_deref(), variant.coding.as_deref());
        headers.extend(language.map(|it| ("content-language", it.into())));
        headers.extend(coding.map(|it| ("content-encoding", it.into())));
        Reply {
            status: 200,
            headers,
            body: Body::Whole(Cow::Borrowed(&variant.body)),
        }
    }

    /// The first of the variants whose qualities have the greatest product, `None` where all products are 0.
    fn chosen(&self, headers: &Headers<'_>) -> Option<&Variant> {
        let qualities = [
            self.media_type_qualities(headers),
            self.language_qualities(headers),
            self.coding_qualities(headers),
        ];
        let (mut best, mut greatest) = (None, 0);
        for (at, variant) in self.variants.iter().enumerate() {
            let rank = qualities.iter().map(|it| u32::from(it[at])).product();
            if rank > greatest {
                (best, greatest) = (Some(variant), rank);
            }
        }
        best
    }

    /// One quality for each variant.
    fn each(&self, quality: impl Fn(usize, &Variant) -> u16) -> Qualities {
        let variants = self.variants.iter().enumerate();
        variants.map(|(at, variant)| quality(at, variant)).collect()
    }

    fn media_type_qualities(&self, headers: &Headers<'_>) -> Qualities {
        let exactness = |variant: &Variant, range: &MediaType<'_>| {
            variant.media_type.exactness_in(range).map(usize::from)
        };
        self.best_qualities(headers, "accept", media_type::read, exactness)
            .unwrap_or_else(|| vec![GREATEST; self.variants.len()])
    }

    fn language_qualities(&self, headers: &Headers<'_>) -> Qualities {
        let read = |text| (text == b"*" || is_language(text)).then_some(text);
        let length = |variant: &Variant, text: &&[u8]| {
            let tag = variant.language.as_ref()?.as_bytes();
            match *text {
                b"*" => Some(0),
                text => language::has(text, tag).then_some(text.len()),
            }
        };
        let found = self.best_qualities(headers, "accept-language", read, length);
        self.each(|at, variant| match (&found, &variant.language) {
            (Some(found), Some(_)) => found[at],
            _ => GREATEST,
        })
    }

    /// For each variant the quality of the item that fits it best, the first one of these, and 0 where none fits. `None`
    /// where the header is absent or has no item.
    fn best_qualities<'a, T>(
        &self,
        headers: &Headers<'a>,
        name: &str,
        read: impl Fn(&'a [u8]) -> Option<T>,
        fit: impl Fn(&Variant, &T) -> Option<usize>,
    ) -> Option<Qualities> {
        let mut best = vec![(None, 0); self.variants.len()];
        let mut is_empty = true;
        for (text, quality) in headers.list(name)?.filter_map(quality::split) {
            let Some(item) = read(text) else {
                continue;
            };
            is_empty = false;
            for (best, variant) in best.iter_mut().zip(&self.variants) {
                let fit = fit(variant, &item);
                if fit > best.0 {
                    *best = (fit, quality);
                }
            }
        }
        (!is_empty).then(|| best.iter().map(|it| it.1).collect())
    }

    fn coding_qualities(&self, headers: &Headers<'_>) -> Qualities {
        let Some(items) = headers.list("accept-encoding") else {
            return self.unnamed_qualities(GREATEST, 1);
        };
        let mut named = vec![None; self.variants.len()];
        let (mut any, mut is_empty) = (None, true);
        for (coding, quality) in items.filter_map(quality::split) {
            is_empty = false;
            if coding == b"*" {
                any = any.max(Some(quality));
                continue;
            }
            for (best, variant) in named.iter_mut().zip(&self.variants) {
                let name = variant.coding.as_deref().unwrap_or("identity");
                if coding.eq_ignore_ascii_case(name.as_bytes()) {
                    *best = (*best).max(Some(quality));
                }
            }
        }
        let unnamed = self.unnamed_qualities(if is_empty { GREATEST } else { 1 }, 0);
        self.each(|at, _| named[at].or(any).unwrap_or(unnamed[at]))
    }

    /// What variants have whose codings no item names.
    fn unnamed_qualities(&self, identity: u16, others: u16) -> Qualities {
        self.each(|_, variant| {
            if variant.coding.is_none() {
                identity
            } else {
                others
            }
        })
    }
}

impl Variant {
    fn of(
        content_type: &'static str,
        language: Option<&str>,
        coding: Option<&str>,
        body: &[u8],
    ) -> Variant {
        Variant {
            media_type: MediaType::of_essence(content_type),
            content_type,
            language: language.map(str::to_string),
            coding: coding.map(str::to_string),
            body: body.to_vec(),
        }
    }
}
