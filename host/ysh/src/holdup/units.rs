//! Times, sizes, rates, powers and voltages as they are written on a command line. Times are whole picoseconds, so that nothing is lost
//! where one is held against another.

use std::fmt;
use std::ops::{Add, Mul};

use crate::columns::grouped;

/// A time in picoseconds.
#[derive(Clone, Copy, Debug, Default, PartialEq, Eq, PartialOrd, Ord)]
pub struct Time(pub u128);

pub const PICOS_A_SECOND: u128 = 1_000_000_000_000;
/// The longest time that is taken, a million seconds: no sum or product of such times here is more than 128 bits.
pub const LONGEST: u128 = 1_000_000 * PICOS_A_SECOND;
const PICOS_A_MILLI: u128 = 1_000_000_000;
const PICOS_A_MICRO: u128 = 1_000_000;

impl Time {
    pub fn seconds(self) -> f64 {
        self.0 as f64 / PICOS_A_SECOND as f64
    }

    pub fn ms(self) -> f64 {
        self.0 as f64 / PICOS_A_MILLI as f64
    }

    /// Milliseconds with three places, rounded up: never less than it is.
    pub fn up(self) -> String {
        let micros = self.0.div_ceil(PICOS_A_MICRO);
        format!("{}.{:03}", grouped((micros / 1000) as u64), micros % 1000)
    }

    /// Milliseconds with three places, rounded down: never more than it is.
    pub fn down(self) -> String {
        let micros = self.0 / PICOS_A_MICRO;
        format!("{}.{:03}", grouped((micros / 1000) as u64), micros % 1000)
    }

    /// The whole microseconds of it.
    pub fn whole_micros(self) -> Time {
        Time(self.0 / PICOS_A_MICRO * PICOS_A_MICRO)
    }

    /// What is left when another time is taken away; nothing where there is not so much.
    pub fn less(self, other: Time) -> Time {
        Time(self.0.saturating_sub(other.0))
    }
}

/// Milliseconds, exactly, with no more places than it needs.
impl fmt::Display for Time {
    fn fmt(&self, f: &mut fmt::Formatter) -> fmt::Result {
        let (whole, rest) = (grouped((self.0 / PICOS_A_MILLI) as u64), self.0 % PICOS_A_MILLI);
        match rest {
            0 => write!(f, "{whole}"),
            _ => write!(f, "{whole}.{}", format!("{rest:09}").trim_end_matches('0')),
        }
    }
}

/// A share that is put on a time, in millionths of it.
#[derive(Clone, Copy, Debug, Default, PartialEq, Eq)]
pub struct Share(u128);

const WHOLE: u128 = 1_000_000;

impl Share {
    #[cfg(test)]
    pub fn of_thousands(thousandths: u128) -> Share {
        Share(thousandths * 1000)
    }

    /// A time with the share on it, rounded up.
    pub fn more(self, time: Time) -> Time {
        Time((time.0 * (WHOLE + self.0)).div_ceil(WHOLE))
    }

    /// The longest time that is no longer than another with the share on it.
    pub fn less(self, time: Time) -> Time {
        Time(time.0 * WHOLE / (WHOLE + self.0))
    }

    pub fn is_none(self) -> bool {
        self.0 == 0
    }

    /// Of one whole.
    pub fn fraction(self) -> f64 {
        self.0 as f64 / WHOLE as f64
    }
}

impl fmt::Display for Share {
    fn fmt(&self, f: &mut fmt::Formatter) -> fmt::Result {
        write!(f, "{}%", self.0 as f64 / 1e4)
    }
}

/// A percentage from 0 up, in steps of a ten-thousandth of a percent.
pub fn parse_share(text: &str) -> Result<Share, String> {
    let number = text.trim().strip_suffix('%').unwrap_or(text).trim();
    match scaled(number, 10_000) {
        Some(share @ 0..=10_000_000) => Ok(Share(share)),
        _ => Err("a percentage from 0 to 1,000 was expected, such as 10%".to_owned()),
    }
}

impl Add for Time {
    type Output = Time;

    fn add(self, other: Time) -> Time {
        Time(self.0 + other.0)
    }
}

impl Mul<u64> for Time {
    type Output = Time;

    fn mul(self, times: u64) -> Time {
        Time(self.0 * u128::from(times))
    }
}

impl std::iter::Sum for Time {
    fn sum<I: Iterator<Item = Time>>(times: I) -> Time {
        times.fold(Time(0), Add::add)
    }
}

/// A number and the unit behind it, taken apart.
fn apart(text: &str) -> (&str, &str) {
    let text = text.trim();
    let end = text.find(|c: char| !(c.is_ascii_digit() || matches!(c, '.' | '-' | '+'))).unwrap_or(text.len());
    (&text[..end], text[end..].trim())
}

/// A decimal number that is not negative, times a scale, where that is whole and not above 10^24.
fn scaled(number: &str, scale: u128) -> Option<u128> {
    let (whole, part) = number.split_once('.').unwrap_or((number, ""));
    let digits = format!("{whole}{part}");
    let fine = !digits.is_empty() && digits.len() <= 18 && digits.bytes().all(|b| b.is_ascii_digit());
    let over = 10u128.checked_pow(part.len() as u32)?;
    let value = fine.then(|| digits.parse::<u128>().ok())??.checked_mul(scale)?;
    (value % over == 0 && value / over <= 1_000_000_000_000_000_000_000_000).then_some(value / over)
}

pub fn parse_time(text: &str) -> Result<Time, String> {
    let (number, unit) = apart(text);
    let scale = match unit {
        "s" => PICOS_A_SECOND,
        "ms" => PICOS_A_MILLI,
        "us" | "µs" | "μs" => PICOS_A_MICRO,
        "ns" => 1000,
        _ => 0,
    };
    let time = if scale == 0 { None } else { scaled(number, scale) };
    time.filter(|time| *time <= LONGEST)
        .map(Time)
        .ok_or_else(|| "a time from 0 up with its unit (s, ms, us, ns) was expected, such as 0.7ms".to_owned())
}

/// A time that is more than none.
pub fn parse_span(text: &str) -> Result<Time, String> {
    match parse_time(text) {
        Ok(Time(0)) => Err("a time above 0 was expected, such as 0.7ms".to_owned()),
        time => time,
    }
}

fn bytes_of(unit: &str) -> Option<u128> {
    match unit {
        "" | "B" => Some(1),
        "kB" | "KB" => Some(1000),
        "MB" => Some(1_000_000),
        "KiB" => Some(1024),
        "MiB" => Some(1024 * 1024),
        _ => None,
    }
}

pub fn parse_bytes(text: &str) -> Result<u64, String> {
    let (number, unit) = apart(text);
    match bytes_of(unit).and_then(|scale| scaled(number, scale)) {
        Some(bytes @ 1..=0x1_0000_0000) => Ok(bytes as u64),
        _ => Err("a whole number of bytes from 1 to 4,294,967,296 was expected, such as 256 or 4KiB".to_owned()),
    }
}

pub fn parse_rate(text: &str) -> Result<u64, String> {
    let (number, unit) = apart(text);
    match bytes_of(unit.strip_suffix("/s").unwrap_or(unit)).and_then(|scale| scaled(number, scale)) {
        Some(rate @ 1..=1_000_000_000_000) => Ok(rate as u64),
        _ => Err("bytes a second from 1 up were expected, such as 1.5MB/s".to_owned()),
    }
}

/// A float above 0, by the units it may have.
fn above_zero(text: &str, units: &[(&str, f64)], expected: &str) -> Result<f64, String> {
    let (number, unit) = apart(text);
    let scale = units.iter().find(|(name, _)| *name == unit).map(|(_, scale)| *scale);
    match (number.parse::<f64>(), scale) {
        (Ok(x), Some(scale)) if x > 0.0 && (x * scale).is_finite() => Ok(x * scale),
        _ => Err(expected.to_owned()),
    }
}

pub fn parse_power(text: &str) -> Result<f64, String> {
    above_zero(
        text,
        &[("W", 1.0), ("mW", 1e-3), ("kW", 1e3)],
        "a power above 0 with its unit (W, mW) was expected, such as 2.5W",
    )
}

pub fn parse_voltage(text: &str) -> Result<f64, String> {
    above_zero(text, &[("V", 1.0), ("mV", 1e-3)], "a voltage above 0 with its unit (V, mV) was expected, such as 12V")
}

pub fn parse_capacitance(text: &str) -> Result<f64, String> {
    above_zero(
        text,
        &[("F", 1.0), ("mF", 1e-3), ("uF", 1e-6), ("µF", 1e-6), ("μF", 1e-6), ("nF", 1e-9)],
        "a capacitance above 0 with its unit (F, mF, uF, nF) was expected, such as 1000uF",
    )
}

pub fn parse_resistance(text: &str) -> Result<f64, String> {
    above_zero(
        text,
        &[("ohm", 1.0), ("Ω", 1.0), ("Ω", 1.0), ("mohm", 1e-3), ("mΩ", 1e-3), ("mΩ", 1e-3)],
        "a resistance above 0 with its unit (ohm, mohm) was expected, such as 50mohm",
    )
}

/// A converter's efficiency as a fraction.
pub fn parse_efficiency(text: &str) -> Result<f64, String> {
    let number = text.trim().strip_suffix('%').unwrap_or(text).trim();
    match number.parse::<f64>() {
        Ok(x) if x > 0.0 && x <= 100.0 => Ok(x / 100.0),
        _ => Err("a percentage above 0 and up to 100 was expected, such as 85%".to_owned()),
    }
}

/// A percentage as a fraction.
pub fn parse_percent(text: &str) -> Result<f64, String> {
    let number = text.trim().strip_suffix('%').unwrap_or(text).trim();
    match number.parse::<f64>() {
        Ok(x) if (0.0..100.0).contains(&x) => Ok(x / 100.0),
        _ => Err("a percentage from 0 up and below 100 was expected, such as 20%".to_owned()),
    }
}

#[cfg(test)]
mod tests {
    use super::*;

    #[test]
    fn times() {
        let ps = |text| parse_time(text).map(|time| time.0);
        assert_eq!(ps("11ms"), Ok(11_000_000_000));
        assert_eq!((ps("0.7 ms"), ps("700us"), ps(".7ms")), (Ok(700_000_000), Ok(700_000_000), Ok(700_000_000)));
        assert_eq!((ps("1s"), ps("2.5ns"), ps("0ms")), (Ok(1_000_000_000_000), Ok(2500), Ok(0)));
        for bad in [
            "11",
            "ms",
            "",
            "-1ms",
            "1.2.3ms",
            "1e3ms",
            "0.0001ns",
            "+5ms",
            "99999999999999999999s",
            "5 m",
            "∞ms",
            "1000001s",
        ] {
            assert!(ps(bad).is_err(), "{bad}");
        }
        assert!(parse_span("0ms").is_err() && parse_span("1ns").is_ok());
    }

    #[test]
    fn times_are_written_exactly_and_rounded_up() {
        let time = parse_time("0.05ms").unwrap() + parse_time("13.3ms").unwrap() * 2;
        assert_eq!((time.to_string(), time.up()), ("26.65".into(), "26.650".into()));
        assert_eq!((Time(1).to_string(), Time(1).up()), ("0.000000001".into(), "0.001".into()));
        assert_eq!(
            (parse_time("11ms").unwrap().up(), parse_time("2.5s").unwrap().up()),
            ("11.000".into(), "2,500.000".into())
        );
    }

    #[test]
    fn a_margin_is_put_on_and_taken_off() {
        let share = parse_share("10%").unwrap();
        assert_eq!(
            (share.more(Time(100)), share.more(Time(101)), share.to_string()),
            (Time(110), Time(112), "10%".into())
        );
        assert_eq!(
            (share.less(Time(110)), share.less(Time(111)), share.less(Time(109))),
            (Time(100), Time(100), Time(99))
        );
        for time in (0..500).map(Time) {
            for share in ["0", "0.0001%", "33.3%", "1000%"].map(|text| parse_share(text).unwrap()) {
                let less = share.less(time);
                assert!(share.more(less) <= time && share.more(Time(less.0 + 1)) > time);
            }
        }
        assert!(["-1%", "1001%", "x", "0.00001%"].iter().all(|bad| parse_share(bad).is_err()));
    }

    #[test]
    fn sizes_and_rates() {
        assert_eq!((parse_bytes("256"), parse_bytes("4KiB"), parse_bytes("0.5kB")), (Ok(256), Ok(4096), Ok(500)));
        assert!(["-256", "0", "1.5", "256 pages", "abc"].iter().all(|bad| parse_bytes(bad).is_err()));
        assert_eq!((parse_rate("1.5MB/s"), parse_rate("2000")), (Ok(1_500_000), Ok(2000)));
        assert!(parse_rate("0").is_err() && parse_rate("fast").is_err());
    }

    #[test]
    fn the_supply() {
        assert_eq!((parse_power("800mW"), parse_voltage("12V"), parse_percent("20%")), (Ok(0.8), Ok(12.0), Ok(0.2)));
        assert!(parse_power("2.5").is_err() && parse_voltage("-1V").is_err() && parse_percent("100%").is_err());
        assert_eq!((parse_capacitance("1000uF"), parse_resistance("50mohm")), (Ok(1000.0 * 1e-6), Ok(0.05)));
        assert_eq!((parse_efficiency("85%"), parse_efficiency("100")), (Ok(0.85), Ok(1.0)));
        assert!(
            parse_capacitance("1000").is_err() && parse_resistance("0ohm").is_err() && parse_efficiency("0%").is_err()
        );
        assert!(parse_power("NaNW").is_err() && parse_percent("NaN").is_err());
    }
}
