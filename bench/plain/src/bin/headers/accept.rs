//! Accept.
use crate::map::{Header, Headers};
use crate::media_type::MediaType;
use crate::quality;

pub struct Accept(Vec<Item>);

struct Item {
    media_type: MediaType,
    /// Thousandths.
    quality: u16,
}

impl Item {
    fn read(text: &str) -> Option<Item> {
        let (text, quality) = quality::split(text)?;
        let media_type = MediaType::read(text)?;
        Some(Item {
            media_type,
            quality,
        })
    }

    fn print(&self, out: &mut String) {
        self.media_type.print(out);
        match self.quality {
            1000 => {}
            0 => out.push_str("; q=0"),
            quality => push_quality(out, quality),
        }
    }
}

/// Prints from 1 to 999 thousandths.
fn push_quality(out: &mut String, quality: u16) {
    out.push_str("; q=0.");
    let (mut rest, mut unit) = (quality, 100);
    while rest > 0 {
        out.push(char::from(b'0' + (rest / unit) as u8));
        rest %= unit;
        unit /= 10;
    }
}

impl Header for Accept {
    fn read(headers: &Headers) -> Option<Self> {
        headers
            .read_list("accept", |text| text.split(','), Item::read)
            .map(Accept)
    }

    fn print(&self, out: &mut String) {
        for (at, item) in self.0.iter().enumerate() {
            if at > 0 {
                out.push_str(", ");
            }
            item.print(out);
        }
    }
}
