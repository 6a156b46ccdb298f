//! Numbers and cuts of bytes.
use std::io::Write;

/// The number that these bytes write in digits alone, where it is at most `most`.
pub fn number(digits: &[u8], most: u64) -> Option<u64> {
    let (first, rest) = digits.split_first()?;
    let digit = |byte: &u8| byte.is_ascii_digit().then(|| u64::from(byte - b'0'));
    rest.iter()
        .try_fold(digit(first)?, |value, byte| {
            value.checked_mul(10)?.checked_add(digit(byte)?)
        })
        .filter(|value| *value <= most)
}

/// The word before the first space, and what stands after it, which is empty where there is none.
pub fn split_word(line: &[u8]) -> (&[u8], &[u8]) {
    match line.iter().position(|byte| *byte == b' ') {
        Some(at) => (&line[..at], &line[at + 1..]),
        None => (line, b""),
    }
}

/// Why adding to a text does not fail.
pub const ROOM: &str = "a text grows as it is written";

/// Adds a number in decimal.
pub fn put_number(out: &mut Vec<u8>, number: u64) {
    write!(out, "{number}").expect(ROOM);
}

/// Adds a word, a number after it, and the end of the line.
pub fn put_line(out: &mut Vec<u8>, word: &[u8], number: u64) {
    out.extend_from_slice(word);
    writeln!(out, "{number}").expect(ROOM);
}
