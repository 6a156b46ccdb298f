//! A header map, and what is read from one.

/// A header with a type of its own.
pub trait Header: Sized {
    /// Reads the header, `None` where it is refused.
    fn read(headers: &Headers) -> Option<Self>;

    fn print(&self, out: &mut String);
}

/// Names in lower case and values, in their order.
pub struct Headers(Vec<(String, Vec<u8>)>);

impl Headers {
    /// The headers of these names and values, which take turns.
    pub fn of(words: &[String]) -> Headers {
        let pair = |pair: &[String]| (pair[0].to_ascii_lowercase(), pair[1].as_bytes().to_vec());
        Headers(words.chunks_exact(2).map(pair).collect())
    }

    pub fn get_all(&self, name: &str) -> impl Iterator<Item = &[u8]> {
        let named = self.0.iter().filter(move |header| header.0 == name);
        named.map(|header| header.1.as_slice())
    }

    pub fn get(&self, name: &str) -> Option<&[u8]> {
        self.get_all(name).next()
    }

    /// The first value, where it is header text and not empty.
    pub fn first_text(&self, name: &str) -> Option<&str> {
        header_text(self.get(name)?).filter(|text| !text.is_empty())
    }

    /// Reads what `read` reads of the trimmed items that the cutter finds in all values. Empty items, and ones that
    /// cannot be read, are left out.
    pub fn read_list<'a, T, C: Iterator<Item = &'a str>>(
        &'a self,
        name: &str,
        cut: impl Fn(&'a str) -> C,
        read: impl Fn(&str) -> Option<T>,
    ) -> Option<Vec<T>> {
        let mut items = Vec::new();
        for value in self.get_all(name) {
            for item in cut(header_text(value)?) {
                let item = item.trim_ascii();
                if !item.is_empty() {
                    items.extend(read(item));
                }
            }
        }
        Some(items)
    }
}

/// A value as text, where it has bytes from 0x20 to 0x7E and tabs alone.
pub fn header_text(value: &[u8]) -> Option<&str> {
    let is_text = value.iter().all(|byte| matches!(byte, b'\t' | 0x20..=0x7E));
    if is_text {
        str::from_utf8(value).ok()
    } else {
        None
    }
}
