//! An item of the site, as JSON, for each message of a connection as it comes: what a load asks for.
use crate::http1::{asks_close, put_reply};
use crate::messages::{self, Message};
use crate::reply::{Body, Reply};
use crate::text;
use std::borrow::Cow;
use std::fs::File;
use std::io::{self, Read, Write};
use std::os::fd::AsFd;

/// How many bytes are read at once.
const PIECE: usize = 4_096;

/// Serves standard input piece by piece, up to a message that closes.
pub fn serve() -> io::Result<()> {
    let mut input = io::stdin().lock();
    // Standard output would write a reply in two parts, up to its last line and after it.
    let mut output = File::from(io::stdout().as_fd().try_clone_to_owned()?);
    let (mut buffer, mut out) = (Vec::new(), Vec::new());
    let mut piece = [0; PIECE];
    loop {
        let count = input.read(&mut piece)?;
        if count == 0 {
            return Ok(());
        }
        buffer.extend_from_slice(&piece[..count]);
        let (answered, closes) = answer_whole(&buffer, &mut out);
        buffer.drain(..answered);
        output.write_all(&out)?;
        out.clear();
        if closes {
            return Ok(());
        }
    }
}

/// Adds the answers to the messages that are whole. What is no message is taken for one that is cut,
/// and left. Returns how many bytes were answered, and whether the connection closes.
fn answer_whole(bytes: &[u8], out: &mut Vec<u8>) -> (usize, bool) {
    let mut rest = bytes;
    while let Ok(Some(message)) = messages::next(rest) {
        let closes = asks_close(&message);
        let is_head = message.request.method == "HEAD";
        put_reply(out, reply_to(&message), is_head, closes);
        rest = message.rest;
        if closes {
            return (bytes.len() - rest.len(), true);
        }
    }
    (bytes.len() - rest.len(), false)
}

/// The item of the number that stands after `/items/`.
fn reply_to(message: &Message<'_>) -> Reply<'static> {
    let path = message.request.target.path();
    let id = path.strip_prefix("/items/").map(str::as_bytes);
    let Some(id) = id.and_then(|digits| text::number(digits, u64::MAX)) else {
        return Reply {
            status: 404,
            headers: Vec::new(),
            body: Body::Whole(Cow::Borrowed(b"")),
        };
    };
    let json = format!("{{\"id\":{id},\"name\":\"item {id}\",\"tags\":[]}}");
    Reply {
        status: 200,
        headers: vec![("content-type", Cow::Borrowed("application/json"))],
        body: Body::Whole(Cow::Owned(json.into_bytes())),
    }
}
