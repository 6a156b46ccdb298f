//! Cache-Control.
use crate::map::{Header, Headers};
use crate::text::{number, push_number};

pub struct CacheControl(Vec<Directive>);

enum Directive {
    NoCache,
    NoStore,
    NoTransform,
    OnlyIfCached,
    MaxAge(u32),
    MaxStale(u32),
    MinFresh(u32),
    MustRevalidate,
    Public,
    Private,
    ProxyRevalidate,
    SMaxAge(u32),
    Extension(String, Option<String>),
}

use Directive::*;

impl Directive {
    fn read(text: &str) -> Option<Directive> {
        let plain = match text {
            "" => return None,
            "no-cache" => NoCache,
            "no-store" => NoStore,
            "no-transform" => NoTransform,
            "only-if-cached" => OnlyIfCached,
            "must-revalidate" => MustRevalidate,
            "public" => Public,
            "private" => Private,
            "proxy-revalidate" => ProxyRevalidate,
            _ => match text.split_once('=') {
                Some((_, "")) => return None,
                Some((name, argument)) => return read_named(name, argument.trim_matches('"')),
                None => Extension(text.to_owned(), None),
            },
        };
        Some(plain)
    }

    fn print(&self, out: &mut String) {
        match self {
            NoCache => out.push_str("no-cache"),
            NoStore => out.push_str("no-store"),
            NoTransform => out.push_str("no-transform"),
            OnlyIfCached => out.push_str("only-if-cached"),
            MaxAge(seconds) => push_seconds(out, "max-age=", *seconds),
            MaxStale(seconds) => push_seconds(out, "max-stale=", *seconds),
            MinFresh(seconds) => push_seconds(out, "min-fresh=", *seconds),
            MustRevalidate => out.push_str("must-revalidate"),
            Public => out.push_str("public"),
            Private => out.push_str("private"),
            ProxyRevalidate => out.push_str("proxy-revalidate"),
            SMaxAge(seconds) => push_seconds(out, "s-maxage=", *seconds),
            Extension(name, argument) => {
                out.push_str(name);
                if let Some(argument) = argument {
                    out.push('=');
                    out.push_str(argument);
                }
            }
        }
    }
}

fn read_named(name: &str, argument: &str) -> Option<Directive> {
    let seconds = || number(argument, u64::from(u32::MAX)).map(|seconds| seconds as u32);
    match name {
        "max-age" => seconds().map(MaxAge),
        "max-stale" => seconds().map(MaxStale),
        "min-fresh" => seconds().map(MinFresh),
        "s-maxage" => seconds().map(SMaxAge),
        _ => Some(Extension(name.to_owned(), Some(argument.to_owned()))),
    }
}

fn push_seconds(out: &mut String, name: &str, seconds: u32) {
    out.push_str(name);
    push_number(out, u64::from(seconds));
}

impl Header for CacheControl {
    fn read(headers: &Headers) -> Option<Self> {
        let cut = |text| str::split(text, ',');
        let directives = headers.read_list("cache-control", cut, Directive::read)?;
        (!directives.is_empty()).then_some(CacheControl(directives))
    }

    fn print(&self, out: &mut String) {
        for (at, directive) in self.0.iter().enumerate() {
            if at > 0 {
                out.push_str(", ");
            }
            directive.print(out);
        }
    }
}
