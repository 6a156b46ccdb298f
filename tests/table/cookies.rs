//! Cookies as they are read, printed and removed.
use crate::answers::{Answer, no_number, no_such_call, printed, shown, text, with_each};
use crate::maps::map_of;
use http_header::{COOKIE, HeaderMap, HeaderValue};
use httpdate::HttpDate;
use std::alloc::Global;
use web_cookies::{Cookie, CookiePair, CookieParseError, decoded_cookies, raw_cookies};
use web_texts::{Fail, NoMemory};

pub(crate) fn answer(alloc: Global, name: &str, fields: &[&str]) -> Answer {
    match (name, fields) {
        ("parse", [field]) => read(alloc, Cookie::parse(alloc, field)),
        ("parse_encoded", [field]) => read(alloc, Cookie::parse_encoded(alloc, field)),
        ("attributes", [field]) => attributes(alloc, field),
        ("make_removal", [field, moment]) => removal(alloc, field, moment),
        ("raw", values) => listed(alloc, values, false),
        ("decoded", values) => listed(alloc, values, true),
        _ => no_such_call(alloc),
    }
}

/// The name, the value, and what the cookie prints.
fn read(alloc: Global, cookie: Result<Cookie, Fail<CookieParseError>>) -> Answer {
    match cookie {
        Ok(cookie) => {
            let printed = printed(alloc, &cookie)?;
            let (name, value) = (cookie.name(), cookie.value());
            Ok(format!(in alloc; "[{name}] [{value}] prints [{printed}]")?)
        }
        Err(error) => refused(alloc, error),
    }
}

fn refused(alloc: Global, error: Fail<CookieParseError>) -> Answer {
    match error {
        Fail::NoMemory => Err(NoMemory),
        Fail::Of(error) => Ok(format!(in alloc; "refused: {error}")?),
    }
}

/// Whether it is for HTTP only and whether it is secure, with which requests it is sent, the path
/// and the domain, and in seconds how long it lasts and when it ends.
fn attributes(alloc: Global, field: &str) -> Answer {
    match Cookie::parse(alloc, field) {
        Ok(cookie) => {
            let sent = (cookie.http_only(), cookie.secure(), cookie.same_site());
            let expires = cookie.expires().map(|date| date.unix_secs());
            let ends = (cookie.max_age(), expires);
            shown(alloc, (sent, (cookie.path(), cookie.domain()), ends))
        }
        Err(error) => refused(alloc, error),
    }
}

/// What a cookie prints that is removed at a moment, in seconds since 1970.
fn removal(alloc: Global, field: &str, moment: &str) -> Answer {
    let Some(moment) = date_of(moment) else {
        return no_number(alloc);
    };
    match Cookie::parse(alloc, field) {
        Ok(mut cookie) => {
            cookie.make_removal(moment);
            Ok(format!(in alloc; "[{cookie}]")?)
        }
        Err(error) => refused(alloc, error),
    }
}

fn date_of(seconds: &str) -> Option<HttpDate> {
    HttpDate::from_unix_secs(seconds.parse().ok()?).ok()
}

/// The cookies of the header Cookie with these values.
fn listed(alloc: Global, values: &[&str], is_decoded: bool) -> Answer {
    match map_of(alloc, &COOKIE, values)? {
        Some(map) => match cookies_in(alloc, &map, is_decoded) {
            Ok(cookies) => with_each(text(alloc, "cookies")?, cookies.as_slice()),
            Err(error) => refused(alloc, error),
        },
        None => text(alloc, "no value of a header"),
    }
}

fn cookies_in(
    alloc: Global,
    map: &HeaderMap<HeaderValue>,
    is_decoded: bool,
) -> Result<Vec<CookiePair>, Fail<CookieParseError>> {
    if is_decoded {
        decoded_cookies(alloc, map)
    } else {
        raw_cookies(alloc, map)
    }
}
