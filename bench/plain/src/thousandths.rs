//! The number of a quality, in thousandths.

/// The quality of an item that has none.
pub const GREATEST: u16 = 1000;

/// Reads `0` to `1`, with up to three digits after the point.
pub fn read(text: &[u8]) -> Option<u16> {
    let (whole, fraction) = match text {
        [whole] => (whole, &[][..]),
        [whole, b'.', fraction @ ..] if fraction.len() <= 3 => (whole, fraction),
        _ => return None,
    };
    let (mut thousandths, mut unit) = (0, 100);
    for digit in fraction {
        let digit = digit.is_ascii_digit().then(|| u16::from(digit - b'0'))?;
        thousandths += digit * unit;
        unit /= 10;
    }
    match whole {
        b'0' => Some(thousandths),
        b'1' if thousandths == 0 => Some(GREATEST),
        _ => None,
    }
}
