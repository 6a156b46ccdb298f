//! JSON: a reader that builds no tree, and a writer of texts.
use crate::text;
use std::borrow::Cow;

/// Arrays and objects may stand in one another so deep.
const MOST_DEEP: u8 = 127;

/// A value, as far as the demo's target asks.
pub enum Value<'a> {
    Text(Text<'a>),
    Whole(u64),
    Other,
    /// One that is a float, or has one in it.
    Floating,
}

/// A text as it stands between its quotes.
#[derive(Clone, Copy)]
pub struct Text<'a>(&'a [u8]);

impl<'a> Text<'a> {
    /// The text that is meant. Its escapes were tested.
    pub fn value(self) -> Cow<'a, str> {
        if !self.0.contains(&b'\\') {
            return String::from_utf8_lossy(self.0);
        }
        let mut value = Vec::with_capacity(self.0.len());
        let mut rest = self.0;
        while let Some(at) = rest.iter().position(|byte| *byte == b'\\') {
            value.extend_from_slice(&rest[..at]);
            let (char, length) = escaped(&rest[at + 1..]).unwrap_or_default();
            value.extend_from_slice(char.encode_utf8(&mut [0; 4]).as_bytes());
            rest = &rest[at + 1 + length..];
        }
        value.extend_from_slice(rest);
        Cow::Owned(String::from_utf8(value).unwrap_or_default())
    }

    pub fn is(self, other: &str) -> bool {
        self.0 == other.as_bytes() || (self.0.contains(&b'\\') && self.value() == other)
    }
}

/// The character that an escape means by what stands after its backslash, and how many bytes that is.
fn escaped(bytes: &[u8]) -> Option<(char, usize)> {
    let char = match bytes.first()? {
        byte @ (b'"' | b'\\' | b'/') => char::from(*byte),
        b'b' => '\u{8}',
        b'f' => '\u{C}',
        b'n' => '\n',
        b'r' => '\r',
        b't' => '\t',
        b'u' => return escaped_unit(bytes),
        _ => return None,
    };
    Some((char, 1))
}

/// The same for four hexadecimal digits, or two times four, which mean a character of two units.
fn escaped_unit(bytes: &[u8]) -> Option<(char, usize)> {
    let first = unit(bytes.get(1..5)?)?;
    if !(0xD800..0xDC00).contains(&first) {
        return Some((char::from_u32(first)?, 5));
    }
    let second = unit(bytes.get(5..11)?.strip_prefix(b"\\u")?)?;
    let low = second.checked_sub(0xDC00).filter(|low| *low < 0x400)?;
    let char = char::from_u32(0x1_0000 + ((first - 0xD800) << 10) + low)?;
    Some((char, 11))
}

fn unit(digits: &[u8]) -> Option<u32> {
    digits.iter().try_fold(0, |unit, digit| {
        Some(unit << 4 | char::from(*digit).to_digit(16)?)
    })
}

/// What is left of a text.
pub struct Reader<'a> {
    rest: &'a [u8],
    depth: u8,
}

impl<'a> Reader<'a> {
    pub fn of(text: &'a str) -> Reader<'a> {
        Reader {
            rest: text.as_bytes(),
            depth: 0,
        }
    }

    /// Reads the whole text as one value, and calls this for each of its members where it is an object. Answers whether
    /// it is one and whether it holds a float, or `None` where the text is no JSON.
    pub fn read(&mut self, each: impl FnMut(Text<'a>, Value<'a>)) -> Option<(bool, bool)> {
        self.skip_blanks();
        let is_object = self.eat(b'{');
        let value = if is_object {
            self.members(each)?
        } else {
            self.value()?
        };
        self.skip_blanks();
        let holds_float = matches!(value, Value::Floating);
        self.rest.is_empty().then_some((is_object, holds_float))
    }

    fn eat(&mut self, byte: u8) -> bool {
        match self.rest.split_first() {
            Some((first, rest)) if *first == byte => {
                self.rest = rest;
                true
            }
            _ => false,
        }
    }

    fn skip_blanks(&mut self) {
        while let [b' ' | b'\n' | b'\r' | b'\t', rest @ ..] = self.rest {
            self.rest = rest;
        }
    }

    fn value(&mut self) -> Option<Value<'a>> {
        let (first, behind) = self.rest.split_first()?;
        match first {
            b'-' | b'0'..=b'9' => return self.number(),
            _ => self.rest = behind,
        }
        match first {
            b'"' => Some(Value::Text(self.string()?)),
            b'{' => self.members(|_, _| {}),
            b'[' => self.items(),
            b't' => self.word(b"rue"),
            b'f' => self.word(b"alse"),
            b'n' => self.word(b"ull"),
            _ => None,
        }
    }

    fn word(&mut self, rest: &[u8]) -> Option<Value<'a>> {
        self.rest = self.rest.strip_prefix(rest)?;
        Some(Value::Other)
    }

    /// Enters an array or an object, and says whether it ends at once.
    fn open(&mut self, end: u8) -> Option<bool> {
        if self.depth == MOST_DEEP {
            return None;
        }
        self.skip_blanks();
        let is_empty = self.eat(end);
        self.depth += u8::from(!is_empty);
        Some(is_empty)
    }

    /// Whether more follows, which it does after a comma, or what is open ends by this byte.
    fn goes_on(&mut self, end: u8) -> Option<bool> {
        self.skip_blanks();
        if self.eat(b',') {
            self.skip_blanks();
            return Some(true);
        }
        self.depth -= 1;
        self.eat(end).then_some(false)
    }

    /// Reads what stands after the bracket of an array.
    fn items(&mut self) -> Option<Value<'a>> {
        let mut value = Value::Other;
        let mut goes_on = !self.open(b']')?;
        while goes_on {
            if let Value::Floating = self.value()? {
                value = Value::Floating;
            }
            goes_on = self.goes_on(b']')?;
        }
        Some(value)
    }

    /// Reads what stands after the brace of an object, and calls this for each member. Of members of one name the last
    /// alone counts.
    fn members(&mut self, mut each: impl FnMut(Text<'a>, Value<'a>)) -> Option<Value<'a>> {
        let mut floating: Vec<Cow<str>> = Vec::new();
        let mut goes_on = !self.open(b'}')?;
        while goes_on {
            self.eat(b'"').then_some(())?;
            let name = self.string()?;
            self.skip_blanks();
            self.eat(b':').then_some(())?;
            self.skip_blanks();
            let value = self.value()?;
            floating.retain(|other| !name.is(other));
            if let Value::Floating = value {
                floating.push(name.value());
            }
            each(name, value);
            goes_on = self.goes_on(b'}')?;
        }
        Some(if floating.is_empty() {
            Value::Other
        } else {
            Value::Floating
        })
    }

    /// Reads a text after its first quote.
    fn string(&mut self) -> Option<Text<'a>> {
        let start = self.rest;
        let mut rest = start;
        loop {
            let end = rest.iter().position(|byte| MARKS[usize::from(*byte)])?;
            let mark = rest[end];
            rest = &rest[end + 1..];
            match mark {
                b'"' => break,
                b'\\' => rest = &rest[escaped(rest)?.1..],
                _ => return None,
            }
        }
        self.rest = rest;
        Some(Text(&start[..start.len() - rest.len() - 1]))
    }

    fn number(&mut self) -> Option<Value<'a>> {
        let start = self.rest;
        let is_negative = self.eat(b'-');
        let whole = match self.rest {
            [b'0', rest @ ..] => {
                self.rest = rest;
                b"0"
            }
            _ => self.digits()?,
        };
        let mut is_float = false;
        if self.eat(b'.') {
            self.digits()?;
            is_float = true;
        }
        if self.eat(b'e') || self.eat(b'E') {
            let _ = self.eat(b'+') || self.eat(b'-');
            self.digits()?;
            is_float = true;
        }
        if !is_float {
            match text::number(whole, u64::MAX) {
                Some(number) if !is_negative => return Some(Value::Whole(number)),
                Some(1..=0x8000_0000_0000_0000) => return Some(Value::Other),
                _ => {}
            }
        }
        let text = std::str::from_utf8(&start[..start.len() - self.rest.len()]).ok()?;
        let number: f64 = text.parse().ok()?;
        number.is_finite().then_some(Value::Floating)
    }

    /// Takes digits, at least one.
    fn digits(&mut self) -> Option<&'a [u8]> {
        let end = self.rest.iter().position(|byte| !byte.is_ascii_digit());
        let (digits, rest) = self.rest.split_at(end.unwrap_or(self.rest.len()));
        self.rest = rest;
        (!digits.is_empty()).then_some(digits)
    }
}

/// Which bytes do not stand for themselves in a text: control characters, quotes and backslashes.
static MARKS: [bool; 256] = {
    let mut marks = [false; 256];
    let mut control = 0;
    while control < 0x20 {
        marks[control] = true;
        control += 1;
    }
    marks[b'"' as usize] = true;
    marks[b'\\' as usize] = true;
    marks
};

/// How many bytes at the front stand for themselves in a text.
fn plain_length(bytes: &[u8]) -> usize {
    let end = bytes.iter().position(|byte| MARKS[usize::from(*byte)]);
    end.unwrap_or(bytes.len())
}

/// Adds a text with quotes.
pub fn put_text(out: &mut Vec<u8>, text: &str) {
    out.push(b'"');
    let mut rest = text.as_bytes();
    loop {
        let (plain, marked) = rest.split_at(plain_length(rest));
        out.extend_from_slice(plain);
        let Some((mark, behind)) = marked.split_first() else {
            break;
        };
        put_escape(out, *mark);
        rest = behind;
    }
    out.push(b'"');
}

fn put_escape(out: &mut Vec<u8>, byte: u8) {
    let letter = match byte {
        8 => b'b',
        9 => b't',
        10 => b'n',
        12 => b'f',
        13 => b'r',
        b'"' | b'\\' => byte,
        _ => {
            out.extend_from_slice(b"\\u00");
            return text::put_hex(out, &[byte]);
        }
    };
    out.extend_from_slice(&[b'\\', letter]);
}
