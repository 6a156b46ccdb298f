//! Reads a header from a map, prints it into a text and drops both, many times over: the job of
//! bench/headers in plain Rust. Of Accept-Encoding it prints the coding that is negotiated.
//!
//! Its arguments are how many times, the header's name, and the names and values of all headers of
//! the map. It writes the text, or the status is 1 where the header is refused.
mod accept;
mod accept_encoding;
mod cache_control;
mod disposition;
mod map;
mod media_type;
mod quality;
mod range;
mod tags;
mod text;
#[path = "../../thousandths.rs"]
mod thousandths;

use map::{Header, Headers};
use std::hint::black_box;
use std::process::ExitCode;

fn printed<H: Header>(headers: &Headers, count: u64) -> Option<String> {
    let mut text = String::new();
    for _ in 0..count {
        let header = H::read(black_box(headers))?;
        let mut printed = String::new();
        header.print(&mut printed);
        text = printed;
    }
    Some(text)
}

fn printed_of(name: &str, headers: &Headers, count: u64) -> Option<String> {
    match name {
        "accept" => printed::<accept::Accept>(headers, count),
        "accept-encoding" => printed::<accept_encoding::AcceptEncoding>(headers, count),
        "content-type" => printed::<media_type::ContentType>(headers, count),
        "cache-control" => printed::<cache_control::CacheControl>(headers, count),
        "content-disposition" => printed::<disposition::ContentDisposition>(headers, count),
        "range" => printed::<range::Range>(headers, count),
        "if-none-match" => printed::<tags::IfNoneMatch>(headers, count),
        _ => None,
    }
}

fn answer(words: &[String]) -> Option<String> {
    let [_program, count, name, pairs @ ..] = words else {
        return None;
    };
    let count = text::number(count, u64::MAX)?;
    printed_of(name, &Headers::of(pairs), count)
}

fn main() -> ExitCode {
    let words: Vec<String> = std::env::args().collect();
    match answer(&words) {
        Some(text) => {
            println!("{text}");
            ExitCode::SUCCESS
        }
        None => ExitCode::FAILURE,
    }
}
