//! Numbers and times as people read them. What programs read is exact, and written elsewhere.

use chrono::{DateTime, TimeZone, Utc};

use crate::columns::grouped;

/// A number of about seven digits, with a comma before every three of its whole part.
pub fn rounded(x: f64) -> String {
    let size = x.abs();
    if !x.is_finite() || size == 0.0 {
        return if x == 0.0 { "0".to_owned() } else { format!("{x}").replace("inf", "infinite") };
    }
    if !(1e-4..1e15).contains(&size) {
        return format!("{x:.4e}");
    }
    let places = if size >= 1000.0 {
        2
    } else if size >= 1.0 {
        4
    } else {
        6
    };
    let text = format!("{size:.places$}");
    let (whole, part) = text.split_once('.').unwrap_or((&text, ""));
    let part = part.trim_end_matches('0');
    let sign = if x < 0.0 { "-" } else { "" };
    let dot = if part.is_empty() { "" } else { "." };
    format!("{sign}{}{dot}{part}", whole.parse().map_or(whole.to_owned(), grouped))
}

/// A text from outside as people are shown it: on one line, and nothing in it steers a terminal or the order in which it is read.
pub fn shown(text: &str) -> String {
    match text.chars().any(steers) {
        false => text.to_owned(),
        true => text.chars().map(|c| if steers(c) { c.escape_unicode().to_string() } else { c.to_string() }).collect(),
    }
}

/// Control characters, breaks of lines and paragraphs, marks of direction, and what takes no room.
fn steers(c: char) -> bool {
    let marks = ['\u{ad}', '\u{61c}', '\u{180e}', '\u{feff}'];
    let ranges = ['\u{200b}'..='\u{200f}', '\u{2028}'..='\u{202e}', '\u{2060}'..='\u{206f}', '\u{fff9}'..='\u{fffb}'];
    c.is_control() || marks.contains(&c) || ranges.iter().any(|range| range.contains(&c))
}

/// How times are told: as dates where they look like seconds or milliseconds since 1970, else as the numbers that they are.
#[derive(Clone, Copy, Debug, PartialEq, Eq)]
pub enum Clock {
    Seconds,
    Milliseconds,
    Number,
}

impl Clock {
    /// By the first and the last time of a run: both in 1990 to 2100.
    pub fn of(first: i64, last: i64) -> Clock {
        const FROM: i64 = 631_152_000;
        const TO: i64 = 4_102_444_800;
        let both =
            |scale: i64| (FROM * scale..TO * scale).contains(&first) && (FROM * scale..TO * scale).contains(&last);
        match (both(1), both(1000)) {
            (true, _) => Clock::Seconds,
            (_, true) => Clock::Milliseconds,
            _ => Clock::Number,
        }
    }

    /// The date and time that a time is, where it is one.
    pub fn date(self, time: i64) -> Option<DateTime<Utc>> {
        match self {
            Clock::Seconds => Utc.timestamp_opt(time, 0).single(),
            Clock::Milliseconds => Utc.timestamp_millis_opt(time).single(),
            Clock::Number => None,
        }
    }

    /// A time: as `2026-01-05 13:45` in UTC, with seconds and milliseconds where these are not 0.
    pub fn text(self, time: i64) -> String {
        let found = self.date(time);
        let second = if self == Clock::Milliseconds { 1000 } else { 1 };
        let form = match (time.rem_euclid(60 * second), time.rem_euclid(second)) {
            (0, _) => "%Y-%m-%d %H:%M",
            (_, 0) => "%Y-%m-%d %H:%M:%S",
            _ => "%Y-%m-%d %H:%M:%S%.3f",
        };
        found.map_or_else(|| time.to_string(), |date| date.format(form).to_string())
    }

    /// What stands above a column of times.
    pub fn unit(self) -> &'static str {
        match self {
            Clock::Number => "",
            _ => ", UTC",
        }
    }
}

#[cfg(test)]
mod tests {
    use super::*;

    #[test]
    fn numbers_are_short() {
        for (x, text) in [
            (0.0, "0"),
            (-0.0, "0"),
            (12345.678, "12,345.68"),
            (-3.5, "-3.5"),
            (0.000123, "0.000123"),
            (1e-9, "1.0000e-9"),
            (1e300, "1.0000e300"),
            (999.99996, "1,000"),
            (f64::INFINITY, "infinite"),
            (f64::NEG_INFINITY, "-infinite"),
            (f64::NAN, "NaN"),
        ] {
            assert_eq!(rounded(x), text);
        }
    }

    #[test]
    fn what_steers_is_shown_by_its_number() {
        assert_eq!(shown("X\nequity\u{1b}[2J"), "X\\u{a}equity\\u{1b}[2J");
        assert_eq!(shown("a\u{202e}b\u{9b}c\u{7f}"), "a\\u{202e}b\\u{9b}c\\u{7f}");
        assert_eq!(shown("EMA 12 ü 漢 ›"), "EMA 12 ü 漢 ›");
    }

    #[test]
    fn times_are_dates_where_they_look_like_it() {
        assert_eq!(Clock::of(0, 60_000), Clock::Number);
        assert_eq!(Clock::of(1_767_571_200, 1_767_571_260), Clock::Seconds);
        let clock = Clock::of(1_767_571_200_000, 1_767_571_260_000);
        assert_eq!(clock.text(1_767_571_260_000), "2026-01-05 00:01");
        assert_eq!(clock.text(1_767_571_260_250), "2026-01-05 00:01:00.250");
        assert_eq!((Clock::Number.text(7), Clock::Seconds.text(i64::MAX)), ("7".into(), i64::MAX.to_string()));
    }
}
