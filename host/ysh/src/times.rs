//! Times as people and programs write them: `2026-01-05 10:31`, the form that is printed here, ISO 8601 with a zone, and a time of day.

use chrono::{DateTime, NaiveDate, NaiveDateTime, NaiveTime, TimeZone, Utc};

/// A date and time; UTC where no zone is given, midnight where there is a date alone.
pub fn moment(text: &str) -> Option<DateTime<Utc>> {
    if let Ok(found) = DateTime::parse_from_rfc3339(text) {
        return Some(found.with_timezone(&Utc));
    }
    let text = text.trim();
    let plain = text.strip_suffix(['Z', 'z']).or_else(|| text.strip_suffix(" UTC")).unwrap_or(text);
    let plain = &plain.replacen(['T', 't'], " ", 1);
    let zoned = ["%Y-%m-%d %H:%M:%S%.f%z", "%Y-%m-%d %H:%M%z", "%Y-%m-%d %H:%M:%S%.f %z", "%Y-%m-%d %H:%M %z"];
    let bare = ["%Y-%m-%d %H:%M:%S%.f", "%Y-%m-%d %H:%M"];
    let with_zone = || zoned.iter().find_map(|form| DateTime::parse_from_str(plain, form).ok());
    let without = || bare.iter().find_map(|form| NaiveDateTime::parse_from_str(plain, form).ok());
    let date = || NaiveDate::parse_from_str(plain, "%Y-%m-%d").ok().and_then(|date| date.and_hms_opt(0, 0, 0));
    with_zone()
        .map(|found| found.with_timezone(&Utc))
        .or_else(|| without().or_else(date).map(|found| Utc.from_utc_datetime(&found)))
}

/// A time of day, in UTC.
pub fn of_day(text: &str) -> Option<NaiveTime> {
    ["%H:%M:%S%.f", "%H:%M"].iter().find_map(|form| NaiveTime::parse_from_str(text, form).ok())
}

/// The milliseconds since 1970 of a date and time that is no finer than that.
pub fn milliseconds(text: &str) -> Option<i64> {
    let found = moment(text)?;
    (found.timestamp_subsec_nanos() % 1_000_000 == 0).then(|| found.timestamp_millis())
}

#[cfg(test)]
mod tests {
    use super::*;

    #[test]
    fn one_moment_in_many_forms() {
        for text in [
            "2026-01-05 10:31",
            "2026-01-05 10:31:00",
            "2026-01-05T10:31",
            "2026-01-05T10:31:00Z",
            "2026-01-05T10:31Z",
            "2026-01-05 10:31:00.000 UTC",
            "2026-01-05T12:31:00+02:00",
            "2026-01-05 12:31+0200",
            "2026-01-05 05:31:00 -05:00",
        ] {
            assert_eq!(milliseconds(text), Some(1_767_609_060_000), "{text}");
        }
        assert_eq!(milliseconds("2026-01-05"), Some(1_767_571_200_000));
        assert_eq!(milliseconds("2026-01-05 10:31:00.25"), Some(1_767_609_060_250));
        assert_eq!((milliseconds("2026-01-05 10:31:00.0001"), moment("2026-13-05")), (None, None));
        for bad in ["", "noon", "10:31", "12:30", "2026", "2026-01-05 25:00", "05.01.2026", "1 2"] {
            assert_eq!(moment(bad), None, "{bad}");
        }
    }

    #[test]
    fn times_of_day() {
        assert_eq!(of_day("10:31"), NaiveTime::from_hms_opt(10, 31, 0));
        assert_eq!(of_day("23:59:30.5"), NaiveTime::from_hms_milli_opt(23, 59, 30, 500));
        assert_eq!((of_day("24:00"), of_day("10"), of_day("bar:1")), (None, None, None));
    }
}
