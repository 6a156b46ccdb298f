//! The parts of a form that is sent as `multipart/form-data` (RFC 7578).
use crate::body::{CODED, FAILED};
use crate::disposition;
use crate::headers::{is_header, is_header_text};
use crate::media_type;
use crate::reply::Refusal;
use crate::request::Request;
use crate::script::{self, Mark};
use crate::text::{find, put_number, trimmed};
use std::borrow::Cow;

/// The most bytes of a part's content.
const PART_LIMIT: usize = 65_536;
const MOST_PARTS: usize = 64;
/// The most bytes of a part's head, and the most lines.
const MOST_HEAD: usize = 4_096;
const MOST_LINES: usize = 16;

pub struct Part<'a> {
    name: String,
    filename: Option<String>,
    content: Cow<'a, [u8]>,
}

/// The name, the file name or a hyphen, and the length of each part, with bars between.
pub fn text(parts: &[Part<'_>]) -> Vec<u8> {
    let mut out = Vec::with_capacity(32 * parts.len());
    for (at, part) in parts.iter().enumerate() {
        if at > 0 {
            out.push(b'|');
        }
        out.extend_from_slice(part.name.as_bytes());
        out.push(b' ');
        out.extend_from_slice(part.filename.as_deref().unwrap_or("-").as_bytes());
        out.push(b' ');
        put_number(&mut out, part.content.len() as u64);
    }
    out
}

/// Parts that are being read.
pub struct Parts<'a> {
    marks: std::vec::IntoIter<Mark<'a>>,
    /// The bytes of the piece that was decoded last.
    decoded: Vec<u8>,
    reader: Result<Reader<'a>, Option<Refusal>>,
}

impl<'a> Parts<'a> {
    pub fn of(request: &Request<'_>, marks: &mut Vec<Mark<'a>>) -> Parts<'a> {
        Parts {
            marks: std::mem::take(marks).into_iter(),
            decoded: Vec::new(),
            reader: Reader::of(request).map_err(Some),
        }
    }

    /// Takes the marks up to the next stall, or to the answer.
    pub fn poll(&mut self) -> Option<Result<Vec<Part<'a>>, Refusal>> {
        let reader = match &mut self.reader {
            Ok(reader) => reader,
            Err(refusal) => return refusal.take().map(Err),
        };
        loop {
            let taken = match self.marks.next() {
                Some(Mark::Text(piece)) => reader.take(piece, Cow::Borrowed),
                Some(Mark::Piece(digits)) => {
                    self.decoded.clear();
                    script::decode_into(&mut self.decoded, digits);
                    reader.take(&self.decoded, |bytes| Cow::Owned(bytes.to_vec()))
                }
                Some(Mark::Stall) => return None,
                Some(Mark::Fault) => Err(Refusal::of(400, FAILED)),
                None => Err(Refusal::of(400, GRAMMAR)),
            };
            match taken {
                Ok(()) if reader.place == Place::End => {
                    return Some(Ok(std::mem::take(&mut reader.parts)));
                }
                Ok(()) => {}
                Err(refusal) => return Some(Err(refusal)),
            }
        }
    }
}

const GRAMMAR: &str = "multipart grammar";

/// What reads the pieces of a body.
struct Reader<'a> {
    /// A line's end, two hyphens and the boundary.
    delimiter: Vec<u8>,
    place: Place,
    /// The head of the part, as far as it came.
    head: Vec<u8>,
    /// The parts, the last one with its content so far.
    parts: Vec<Part<'a>>,
}

/// Where a body is being read.
#[derive(Clone, Copy, PartialEq)]
enum Place {
    /// In the first boundary, of which so many bytes came.
    Start(usize),
    /// After a boundary.
    Boundary,
    /// After a boundary and the first byte of a line's end.
    LineEnd,
    /// After a boundary and the first hyphen of the end.
    Hyphen,
    Head,
    /// In a content that ends with so many bytes of a delimiter.
    Content(usize),
    End,
}

impl<'a> Reader<'a> {
    fn of(request: &Request<'_>) -> Result<Reader<'a>, Refusal> {
        let media_type = request.headers.media_type().ok().flatten();
        let form = media_type.filter(|it| it.has_essence("multipart/form-data"));
        let boundary = form.as_ref().and_then(|it| it.param("boundary"));
        let Some(boundary) = boundary.filter(|it| is_boundary(it)) else {
            let text = "multipart type or boundary is missing";
            return Err(Refusal::of(415, text));
        };
        if request.headers.has_coding() {
            return Err(Refusal::of(400, CODED));
        }
        Ok(Reader {
            delimiter: [b"\r\n--", boundary].concat(),
            place: Place::Start(0),
            head: Vec::new(),
            parts: Vec::new(),
        })
    }

    /// Takes a piece, up to the end of the last part. Contents keep what they have of it by `keep`.
    fn take<'p>(
        &mut self,
        mut piece: &'p [u8],
        keep: impl Fn(&'p [u8]) -> Cow<'a, [u8]>,
    ) -> Result<(), Refusal> {
        while let [first, behind @ ..] = piece {
            piece = match (self.place, first) {
                (Place::Start(came), _) => self.take_start(came, piece)?,
                (Place::Boundary, b'\r') => self.go_to(Place::LineEnd, behind),
                (Place::Boundary, b'-') => self.go_to(Place::Hyphen, behind),
                (Place::LineEnd, b'\n') if self.parts.len() == MOST_PARTS => {
                    return Err(Refusal::of(413, "too many parts"));
                }
                (Place::LineEnd, b'\n') => self.go_to(Place::Head, behind),
                (Place::Hyphen, b'-') => self.go_to(Place::End, behind),
                (Place::Head, _) => self.take_head(piece)?,
                (Place::Content(came), _) => self.take_content(came, piece, &keep)?,
                (Place::End, _) => return Ok(()),
                _ => return Err(Refusal::of(400, GRAMMAR)),
            };
        }
        Ok(())
    }

    fn go_to<'p>(&mut self, place: Place, rest: &'p [u8]) -> &'p [u8] {
        self.place = place;
        rest
    }

    fn take_start<'p>(&mut self, came: usize, piece: &'p [u8]) -> Result<&'p [u8], Refusal> {
        let wanted = &self.delimiter[2 + came..];
        let length = common(wanted, piece).ok_or(Refusal::of(400, GRAMMAR))?;
        let is_whole = length == wanted.len();
        let place = if is_whole {
            Place::Boundary
        } else {
            Place::Start(came + length)
        };
        Ok(self.go_to(place, &piece[length..]))
    }

    /// Takes the next line of a head, or the front of one.
    fn take_head<'p>(&mut self, piece: &'p [u8]) -> Result<&'p [u8], Refusal> {
        let room = (MOST_HEAD - self.head.len()).min(piece.len());
        let end = find(&piece[..room], b'\n').map_or(room, |at| at + 1);
        let (line, rest) = piece.split_at(end);
        self.head.extend_from_slice(line);
        if self.head == b"\r\n" || self.head.ends_with(b"\r\n\r\n") {
            let part = read_head(&self.head).ok_or(Refusal::of(400, "part head"))?;
            self.parts.push(part);
            self.head.clear();
            self.place = Place::Content(0);
        } else if self.head.len() == MOST_HEAD {
            return Err(Refusal::of(400, GRAMMAR));
        }
        Ok(rest)
    }

    /// Takes content up to the next delimiter, or to the end of the piece.
    fn take_content<'p>(
        &mut self,
        came: usize,
        piece: &'p [u8],
        keep: &impl Fn(&'p [u8]) -> Cow<'a, [u8]>,
    ) -> Result<&'p [u8], Refusal> {
        let content = &mut self.parts.last_mut().expect(HAS_HEAD).content;
        if came > 0
            && let Some(length) = common(&self.delimiter[came..], piece)
        {
            self.place = behind(content.len(), came + length, self.delimiter.len())?;
            return Ok(&piece[length..]);
        }
        let at = find_delimiter(&self.delimiter, piece);
        let length = self.delimiter.len().min(piece.len() - at);
        self.place = behind(content.len() + came + at, length, self.delimiter.len())?;
        if came > 0 {
            content.to_mut().extend_from_slice(&self.delimiter[..came]);
        }
        match content {
            Cow::Borrowed([]) => *content = keep(&piece[..at]),
            _ => content.to_mut().extend_from_slice(&piece[..at]),
        }
        Ok(&piece[at + length..])
    }
}

const HAS_HEAD: &str = "a content follows a head";

/// The place after so many bytes of a delimiter that begins at this place of a content.
fn behind(start: usize, came: usize, whole: usize) -> Result<Place, Refusal> {
    let is_whole = came == whole;
    let is_too_long = if is_whole {
        start > PART_LIMIT
    } else {
        start + came >= PART_LIMIT + whole
    };
    if is_too_long {
        return Err(Refusal::of(413, "part reached its limit"));
    }
    Ok(if is_whole {
        Place::Boundary
    } else {
        Place::Content(came)
    })
}

/// Where the first delimiter begins, or a front of one at the end, which may be empty.
fn find_delimiter(delimiter: &[u8], piece: &[u8]) -> usize {
    let mut start = 0;
    while let Some(at) = find(&piece[start..], b'\r') {
        if common(delimiter, &piece[start + at..]).is_some() {
            return start + at;
        }
        start += at + 1;
    }
    piece.len()
}

/// The length of the shorter one of these, where the longer one begins with it.
fn common(wanted: &[u8], piece: &[u8]) -> Option<usize> {
    let length = wanted.len().min(piece.len());
    (piece[..length] == wanted[..length]).then_some(length)
}

/// Whether these are 1 to 70 bytes of printable ASCII without a space at their end.
fn is_boundary(text: &[u8]) -> bool {
    (1..=70).contains(&text.len())
        && text.iter().all(|byte| matches!(byte, 0x20..=0x7E))
        && !text.ends_with(b" ")
}

/// Reads a head: lines, and an empty one. `None` where a line is no header, or where no header says that it is a part of
/// a form, with a name.
fn read_head<'a>(head: &[u8]) -> Option<Part<'a>> {
    let (mut disposition, mut media_type) = (None, None);
    let lines = head
        .strip_suffix(b"\r\n")?
        .split_inclusive(|byte| *byte == b'\n');
    for (number, line) in lines.enumerate() {
        let line = line.strip_suffix(b"\r\n")?;
        let colon = line.iter().position(|byte| *byte == b':')?;
        let (name, value) = (&line[..colon], trimmed(&line[colon + 1..]));
        if number == MOST_LINES || !is_header(name, value) {
            return None;
        }
        if name.eq_ignore_ascii_case(b"content-disposition") {
            disposition.get_or_insert(value);
        } else if name.eq_ignore_ascii_case(b"content-type") {
            media_type.get_or_insert(value);
        }
    }
    let is_media_type = |text| is_header_text(text) && media_type::read(text).is_some();
    if !media_type.is_none_or(is_media_type) {
        return None;
    }
    let disposition = disposition::read(disposition?)?;
    Some(Part {
        name: disposition.name.into_owned(),
        filename: disposition.filename.map(Cow::into_owned),
        content: Cow::Borrowed(&[]),
    })
}
