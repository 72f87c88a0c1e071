//! A bar as it is asked for, and the places of a file's bars that are meant by it.

use chrono::{DateTime, NaiveTime, Utc};

use crate::bars::{At, BarsFile};
use crate::columns::counted;
use crate::problem::Problem;
use crate::show::Clock;
use crate::times;

#[derive(Clone, Copy, Debug, PartialEq, Eq)]
pub enum Place {
    /// By its number.
    Bar(u64),
    /// By its time, as the file has it.
    Time(i64),
    /// A bar's number where there are so many, else the time that it has exactly.
    Either(i64),
    Moment(DateTime<Utc>),
    /// A time of day, where it occurs once.
    OfDay(NaiveTime),
}

pub fn parse_place(text: &str) -> Result<Place, String> {
    let found = match text.split_once(':') {
        Some(("bar", number)) => number.parse().ok().map(Place::Bar),
        Some(("time", number)) => number.parse().ok().map(Place::Time),
        Some(_) => times::of_day(text).map(Place::OfDay).or_else(|| times::moment(text).map(Place::Moment)),
        None => text.parse().ok().map(Place::Either).or_else(|| times::moment(text).map(Place::Moment)),
    };
    found.ok_or_else(|| {
        "a bar's number from 0, or its time, was expected, such as 900, bar:900, time:1767625200000, 10:31 or 2026-01-05T10:31:00Z"
            .to_owned()
    })
}

/// The bars that are meant.
#[derive(Clone, Debug, PartialEq, Eq)]
pub struct Found {
    /// One, or as many as have the same time.
    pub at: Vec<At>,
    /// What is to be said of them.
    pub said: Option<String>,
}

/// As many bars of one time as are shown.
const SHOWN: usize = 10;

/// What is meant in a file.
pub fn find(place: Place, bars: &BarsFile) -> Result<Found, Problem> {
    let one = |at| Ok(Found { at: vec![at], said: None });
    match place {
        Place::Bar(number) => one(At::Bar(number)),
        Place::Time(time) => Times::of(bars)?.at_or_before(bars, time),
        Place::Either(n) => {
            let count = bars.times(|_, _| ())?;
            match u64::try_from(n) {
                Ok(number) if number < count => one(At::Bar(number)),
                _ => exactly(bars, n, count),
            }
        }
        Place::Moment(moment) => {
            let times = Times::of(bars)?;
            let time = times.unit(&bars.name, &moment)?;
            times.at_or_before(bars, time)
        }
        Place::OfDay(time) => {
            let times = Times::of(bars)?;
            let time = times.once(&bars.name, time)?;
            times.at_or_before(bars, time)
        }
    }
}

/// A stretch of bars, by their numbers or times, both ends in it.
#[derive(Clone, Copy, Debug, Default)]
pub struct Bounds {
    from: Option<Bound>,
    to: Option<Bound>,
}

#[derive(Clone, Copy, Debug)]
enum Bound {
    Bar(u64),
    Time(i64),
}

impl Bounds {
    pub fn of(from: Option<Place>, to: Option<Place>, bars: &BarsFile) -> Result<Bounds, Problem> {
        let bound = |place: Option<Place>| place.map(|place| Bound::of(place, bars)).transpose();
        Ok(Bounds { from: bound(from)?, to: bound(to)? })
    }

    pub fn holds(&self, bar: u64, time: i64) -> bool {
        let begun = match self.from {
            None => true,
            Some(Bound::Bar(first)) => bar >= first,
            Some(Bound::Time(first)) => time >= first,
        };
        begun
            && match self.to {
                None => true,
                Some(Bound::Bar(last)) => bar <= last,
                Some(Bound::Time(last)) => time <= last,
            }
    }

    /// Whether no bar from this one on is in it. Times may fall, so they do not tell.
    pub fn is_past(&self, bar: u64) -> bool {
        matches!(self.to, Some(Bound::Bar(last)) if bar >= last)
    }
}

impl Bound {
    fn of(place: Place, bars: &BarsFile) -> Result<Bound, Problem> {
        Ok(match place {
            Place::Bar(number) => Bound::Bar(number),
            Place::Time(time) => Bound::Time(time),
            Place::Either(n) => match u64::try_from(n) {
                Ok(number) if number < bars.times(|_, _| ())? => Bound::Bar(number),
                _ => Bound::Time(n),
            },
            Place::Moment(moment) => Bound::Time(Times::of(bars)?.unit(&bars.name, &moment)?),
            Place::OfDay(time) => Bound::Time(Times::of(bars)?.once(&bars.name, time)?),
        })
    }
}

fn problem(name: &str, text: String) -> Problem {
    Problem::input(name, "--at", text)
}

/// The bars with exactly this time.
fn exactly(bars: &BarsFile, time: i64, count: u64) -> Result<Found, Problem> {
    let mut places = Vec::new();
    bars.times(|place, there| {
        if there == time {
            places.push(place);
        }
    })?;
    match places.is_empty() {
        true => Err(problem(
            &bars.name,
            format!("no bar has the time {time}, and it has not so many bars either ({count})"),
        )),
        false => Ok(shown(places, &time.to_string(), None)),
    }
}

fn shown(places: Vec<u64>, time: &str, before: Option<String>) -> Found {
    let twice = match places.len() {
        0 | 1 => None,
        n if n > SHOWN => {
            Some(format!("{} have the time {time}; these are the first {SHOWN}", counted(n as u64, "bar", "bars")))
        }
        n => Some(format!("{} have the time {time}", counted(n as u64, "bar", "bars"))),
    };
    let said: Vec<String> = before.into_iter().chain(twice).collect();
    let at = places.into_iter().take(SHOWN).map(At::Place).collect();
    Found { at, said: (!said.is_empty()).then(|| said.join("; ")) }
}

/// The first and the last time of a file, and how they are told.
pub struct Times {
    first: i64,
    last: i64,
    clock: Clock,
}

impl Times {
    fn of(bars: &BarsFile) -> Result<Times, Problem> {
        let mut ends: Option<(i64, i64)> = None;
        bars.times(|_, time| {
            let (first, last) = ends.unwrap_or((time, time));
            ends = Some((first.min(time), last.max(time)));
        })?;
        let Some((first, last)) = ends else {
            return Err(problem(&bars.name, "it has no bars".to_owned()));
        };
        Ok(Times::between(first, last))
    }

    pub fn between(first: i64, last: i64) -> Times {
        Times { first, last, clock: Clock::of(first, last) }
    }

    /// A date and time as the file counts time.
    pub fn unit(&self, name: &str, moment: &DateTime<Utc>) -> Result<i64, Problem> {
        match self.clock {
            Clock::Seconds => Ok(moment.timestamp()),
            Clock::Milliseconds => Ok(moment.timestamp_millis()),
            Clock::Number => Err(problem(
                name,
                format!(
                    "its times, {} to {}, are no seconds and no milliseconds since 1970 of the years 1990 to 2100; a bar's number or time was \
                     expected, such as bar:900 or time:{}",
                    self.first, self.last, self.first
                ),
            )),
        }
    }

    /// The one moment with a time of day in the file's stretch; on the day of the bars where all are of one.
    pub fn once(&self, name: &str, time: NaiveTime) -> Result<i64, Problem> {
        let day_of = |time: i64| self.clock.date(time).map(|date| date.naive_utc().date());
        let (Some(mut day), Some(last)) = (day_of(self.first), day_of(self.last)) else {
            return self.unit(name, &DateTime::<Utc>::MIN_UTC);
        };
        let mut within = Vec::new();
        let alone = day == last;
        while day <= last && within.len() < 2 {
            let moment = self.unit(name, &DateTime::from_utc(day.and_time(time), Utc))?;
            if alone || (self.first..=self.last).contains(&moment) {
                within.push(moment);
            }
            day = day.succ_opt().unwrap_or(last);
        }
        let stretch = format!("{} to {}", self.clock.text(self.first), self.clock.text(self.last));
        match within[..] {
            [moment] => Ok(moment),
            [] => Err(problem(name, format!("the bars, {stretch}, have no {time}"))),
            _ => Err(problem(
                name,
                format!("the bars, {stretch}, have {time} more than once; a date was expected with it, such as \"{} {time}\"", last),
            )),
        }
    }

    /// The bars with a time, or else with the last time before it.
    fn at_or_before(&self, bars: &BarsFile, wanted: i64) -> Result<Found, Problem> {
        let (mut best, mut places) = (None, Vec::new());
        bars.times(|place, time| {
            if time <= wanted && best.map_or(true, |best| time >= best) {
                if best != Some(time) {
                    places.clear();
                }
                best = Some(time);
                places.push(place);
            }
        })?;
        let Some(best) = best else {
            let (wanted, first) = (self.clock.text(wanted), self.clock.text(self.first));
            return Err(problem(&bars.name, format!("no bar is at {wanted} or before it; the first is at {first}")));
        };
        let before = (best != wanted).then(|| {
            format!("no bar is at {}; the last before it is at {}", self.clock.text(wanted), self.clock.text(best))
        });
        Ok(shown(places, &self.clock.text(best), before))
    }
}

#[cfg(test)]
mod tests {
    use super::*;

    #[test]
    fn places() {
        assert_eq!(parse_place("900"), Ok(Place::Either(900)));
        assert_eq!((parse_place("bar:0"), parse_place("time:-5")), (Ok(Place::Bar(0)), Ok(Place::Time(-5))));
        assert_eq!(parse_place("10:31"), Ok(Place::OfDay(NaiveTime::from_hms_opt(10, 31, 0).unwrap())));
        let moment = parse_place("2026-01-05 10:31");
        assert!(matches!(moment, Ok(Place::Moment(found)) if found.timestamp() == 1_767_609_060), "{moment:?}");
        assert_eq!(parse_place("2026-01-05T12:31:00+02:00"), moment);
        for bad in ["", "noon", "bar:", "bar:-1", "bar:1.5", "day:3", "99999999999999999999", "25:00", "2026-13-01"] {
            assert!(parse_place(bad).is_err(), "{bad}");
        }
    }
}
