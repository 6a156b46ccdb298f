//! Tests and cuts of bytes.
use std::io::BufRead;

/// Whether these are one or more bytes of a token.
pub fn is_token(bytes: &[u8]) -> bool {
    !bytes.is_empty() && bytes.iter().all(|byte| is_token_byte(*byte))
}

pub fn is_token_byte(byte: u8) -> bool {
    TOKEN_BYTES[usize::from(byte)]
}

static TOKEN_BYTES: [bool; 256] = {
    let mut table = [false; 256];
    let mut byte = 0u8;
    while byte < 128 {
        table[byte as usize] = matches!(byte, b'a'..=b'z' | b'A'..=b'Z' | b'0'..=b'9' | b'!'
            | b'#'..=b'\'' | b'*' | b'+' | b'-' | b'.' | b'^'..=b'`' | b'|' | b'~');
        byte += 1;
    }
    table
};

/// The number that these bytes write in digits alone, where it is at most `most`.
pub fn number(digits: &[u8], most: u64) -> Option<u64> {
    if digits.is_empty() {
        return None;
    }
    digits
        .iter()
        .try_fold(0u64, |value, byte| {
            let digit = byte.is_ascii_digit().then(|| u64::from(byte - b'0'))?;
            value.checked_mul(10)?.checked_add(digit)
        })
        .filter(|value| *value <= most)
}

/// Where the first of these bytes stands.
pub fn find(bytes: &[u8], wanted: u8) -> Option<usize> {
    let mut rest = bytes;
    let taken = rest
        .skip_until(wanted)
        .expect("reading a slice does not fail");
    bytes[..taken].ends_with(&[wanted]).then(|| taken - 1)
}

/// The word before the first space, and what stands after it, which is empty where there is none.
pub fn split_word(line: &[u8]) -> (&[u8], &[u8]) {
    match line.iter().position(|byte| *byte == b' ') {
        Some(at) => (&line[..at], &line[at + 1..]),
        None => (line, b""),
    }
}

/// Without the spaces and tabs at its front.
pub fn trimmed_start(text: &[u8]) -> &[u8] {
    let kept = text.iter().position(|byte| !is_blank(*byte));
    &text[kept.unwrap_or(text.len())..]
}

/// Without the spaces and tabs at its end.
pub fn trimmed_end(text: &[u8]) -> &[u8] {
    let last = text.iter().rposition(|byte| !is_blank(*byte));
    &text[..last.map_or(0, |last| last + 1)]
}

/// Without the spaces and tabs at both ends.
pub fn trimmed(text: &[u8]) -> &[u8] {
    trimmed_end(trimmed_start(text))
}

/// What a hexadecimal digit stands for.
pub fn hex_value(digit: u8) -> Option<u8> {
    match digit {
        b'0'..=b'9' => Some(digit - b'0'),
        b'a'..=b'f' => Some(digit - b'a' + 10),
        b'A'..=b'F' => Some(digit - b'A' + 10),
        _ => None,
    }
}

/// Adds two lower-case hexadecimal digits a byte.
pub fn put_hex(out: &mut Vec<u8>, bytes: &[u8]) {
    const DIGITS: &[u8; 16] = b"0123456789abcdef";
    let digits = |byte: &u8| {
        [
            DIGITS[usize::from(byte >> 4)],
            DIGITS[usize::from(byte & 15)],
        ]
    };
    out.extend(bytes.iter().flat_map(digits));
}

/// Adds a number in decimal.
pub fn put_number(out: &mut Vec<u8>, number: u64) {
    let mut digits = [0; 20];
    let (mut start, mut rest) = (digits.len(), number);
    loop {
        start -= 1;
        digits[start] = b'0' + (rest % 10) as u8;
        rest /= 10;
        if rest == 0 {
            break;
        }
    }
    out.extend_from_slice(&digits[start..]);
}

/// Adds a word, a number after it, and the end of the line.
pub fn put_line(out: &mut Vec<u8>, word: &[u8], number: u64) {
    out.extend_from_slice(word);
    put_number(out, number);
    out.push(b'\n');
}

fn is_blank(byte: u8) -> bool {
    matches!(byte, b' ' | b'\t')
}
