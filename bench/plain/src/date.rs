//! Dates in headers, in the three formats of RFC 9110, section 5.6.7.
use crate::text::number;

const WEEKDAYS: [&str; 7] = [
    "Monday",
    "Tuesday",
    "Wednesday",
    "Thursday",
    "Friday",
    "Saturday",
    "Sunday",
];

const MONTHS: [&[u8]; 12] = [
    b"Jan", b"Feb", b"Mar", b"Apr", b"May", b"Jun", b"Jul", b"Aug", b"Sep", b"Oct", b"Nov", b"Dec",
];

/// A date as it is written.
struct Date {
    /// From 0, which is Monday.
    weekday: usize,
    day: u64,
    /// From 1.
    month: usize,
    year: u64,
    /// Seconds since midnight.
    time: u64,
}

/// The seconds since 1970 of a date, or `None` where the text is none.
pub fn read(text: &[u8]) -> Option<u64> {
    let date = match text.len() {
        29 => read_fixed(text)?,
        24 => read_asctime(text)?,
        _ => read_long(text)?,
    };
    date.seconds()
}

/// `Sun, 06 Nov 1994 08:49:37 GMT`.
fn read_fixed(text: &[u8]) -> Option<Date> {
    let has_form = &text[3..5] == b", " && text[7] == b' ' && text[11] == b' ' && text[16] == b' ';
    if !has_form || &text[25..] != b" GMT" {
        return None;
    }
    Some(Date {
        weekday: short_weekday(&text[..3])?,
        day: digits(&text[5..7])?,
        month: month(&text[8..11])?,
        year: digits(&text[12..16])?,
        time: time(&text[17..25])?,
    })
}

/// `Sunday, 06-Nov-94 08:49:37 GMT`.
fn read_long(text: &[u8]) -> Option<Date> {
    let comma = text.iter().position(|byte| *byte == b',')?;
    let weekday = WEEKDAYS
        .iter()
        .position(|name| name.as_bytes() == &text[..comma])?;
    let text = &text[comma + 1..];
    if text.len() != 23 || text[0] != b' ' || text[3] != b'-' || text[7] != b'-' {
        return None;
    }
    if text[10] != b' ' || &text[19..] != b" GMT" {
        return None;
    }
    let year = digits(&text[8..10])?;
    Some(Date {
        weekday,
        day: digits(&text[1..3])?,
        month: month(&text[4..7])?,
        year: if year < 70 { 2000 + year } else { 1900 + year },
        time: time(&text[11..19])?,
    })
}

/// `Sun Nov  6 08:49:37 1994`.
fn read_asctime(text: &[u8]) -> Option<Date> {
    if text[3] != b' ' || text[7] != b' ' || text[10] != b' ' || text[19] != b' ' {
        return None;
    }
    let day = &text[8..10];
    Some(Date {
        weekday: short_weekday(&text[..3])?,
        day: digits(day.strip_prefix(b" ").unwrap_or(day))?,
        month: month(&text[4..7])?,
        year: digits(&text[20..])?,
        time: time(&text[11..19])?,
    })
}

impl Date {
    /// Since 1970, where it is a day from then to the year 9999, with its day of the week.
    fn seconds(&self) -> Option<u64> {
        if !(1970..=9999).contains(&self.year) || !(1..=self.days_of_month()).contains(&self.day) {
            return None;
        }
        let days = self.days();
        // The first of January 1970 was a Thursday.
        let is_weekday = (days + 3) % 7 == self.weekday as u64;
        is_weekday.then_some(days * 86_400 + self.time)
    }

    fn is_leap_year(&self) -> bool {
        self.year.is_multiple_of(4)
            && (!self.year.is_multiple_of(100) || self.year.is_multiple_of(400))
    }

    fn days_of_month(&self) -> u64 {
        match self.month {
            2 if self.is_leap_year() => 29,
            2 => 28,
            4 | 6 | 9 | 11 => 30,
            _ => 31,
        }
    }

    /// The days since 1970.
    fn days(&self) -> u64 {
        const BEFORE: [u64; 12] = [0, 31, 59, 90, 120, 151, 181, 212, 243, 273, 304, 334];
        let past = self.year - 1;
        let leap_years = past / 4 - past / 100 + past / 400 - 477;
        let leap_day = u64::from(self.month > 2 && self.is_leap_year());
        (self.year - 1970) * 365 + leap_years + BEFORE[self.month - 1] + leap_day + self.day - 1
    }
}

fn short_weekday(name: &[u8]) -> Option<usize> {
    let is_it = |whole: &&str| &whole.as_bytes()[..3] == name;
    WEEKDAYS.iter().position(is_it)
}

fn month(name: &[u8]) -> Option<usize> {
    Some(MONTHS.iter().position(|month| *month == name)? + 1)
}

/// `08:49:37`.
fn time(text: &[u8]) -> Option<u64> {
    if text[2] != b':' || text[5] != b':' {
        return None;
    }
    let (hour, minute, second) = (
        digits(&text[..2])?,
        digits(&text[3..5])?,
        digits(&text[6..])?,
    );
    (hour < 24 && minute < 60 && second < 60).then_some(hour * 3600 + minute * 60 + second)
}

fn digits(text: &[u8]) -> Option<u64> {
    number(text, 9999)
}
