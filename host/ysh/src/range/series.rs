//! The closes of a file, with the best of every 64, and their times.

use std::path::Path;

use spill::swept;
use yshturpa::layout::BLOCK_BARS;
use yshturpa::{Closes, Error, Stretch};

use super::questions::Question;
use crate::bars::{BarsFile, Form, Input};
use crate::lists::{no_room, Lent, List};
use crate::problem::Problem;
use crate::progress::Late;
use crate::show::Clock;
use crate::why::place::{Place, Times};

pub struct Series {
    pub name: String,
    closes: Closes<Lent>,
    times: List<i64>,
    /// The least and the greatest of them.
    between: (i64, i64),
    /// Whether no time is before the one of the bar before.
    rising: bool,
}

/// What a question came to.
#[derive(Clone, Copy, Debug, PartialEq)]
pub struct Found {
    pub first: u64,
    pub last: u64,
    pub stretch: Stretch,
    pub closes_read: u64,
    pub blocks_read: u64,
}

impl Series {
    pub fn read(path: &Path, form: &Form) -> Result<Series, Problem> {
        let bars = BarsFile::open(Input::of(path), form, &[])?;
        let (mut closes, mut times) = (Closes::within(Lent::default(), Lent::default()), List::<i64>::default());
        let (mut between, mut rising, mut words) = ((i64::MAX, i64::MIN), true, Vec::new());
        let shown = Late::bytes(bars.length());
        let read = bars.each(|part| {
            let held = closes.len() as usize;
            closes.make_room(part.bars.len()).map_err(no_room)?;
            for place in 0..part.bars.len() {
                closes.append(part.bars.close(place)).map_err(|error| {
                    let wrong = bars.columns.not_finite(&part.bars.bar(place));
                    let problem = wrong.map(|wrong| bars.problem(part.lines[place], wrong));
                    refused(problem.unwrap_or_else(|| Problem::input(&bars.name, "", "")), error)
                })?;
            }
            words.clear();
            for time in (0..part.bars.len()).map(|place| part.bars.time(place)) {
                // A time is not below the greatest before it just where it is not below the last, as long as they rise.
                rising &= time >= between.1;
                between = (time.min(between.0), time.max(between.1));
                words.push(time as u64);
            }
            times.add(&words)?;
            closes.rooms()[0].0.release(held, closes.len() as usize);
            shown.reached(part.reached);
            Ok(true)
        });
        shown.ended();
        read?;
        Ok(Series { name: bars.name, closes, times, between, rising })
    }

    pub fn len(&self) -> u64 {
        self.closes.len()
    }

    pub fn time(&self, bar: u64) -> i64 {
        self.times.get(bar as usize).unwrap_or_default()
    }

    pub fn clock(&self) -> Clock {
        match (self.times.first(), self.times.last()) {
            (Some(first), Some(last)) => Clock::of(first, last),
            _ => Clock::Number,
        }
    }

    /// Questions one after another; closes and blocks that they passed are given back meanwhile.
    pub fn answers(&self, questions: &[Question]) -> Result<Vec<Found>, Problem> {
        let lists = self.closes.rooms().map(|room| &room.0);
        swept(&lists, || questions.iter().map(|question| self.ask(*question)).collect())
    }

    /// The high and the low of a stretch are the library's to say, and so is that there is none.
    fn ask(&self, question: Question) -> Result<Found, Problem> {
        let first = question.from.map_or(Ok(0), |place| self.first(place))?;
        let last = question.to.map_or(Ok(self.len().wrapping_sub(1)), |place| self.last(place))?;
        let stretch =
            self.closes.stretch(first, last).map_err(|error| refused(Problem::input(&self.name, "", ""), error))?;
        let (closes_read, blocks_read) = reads(first, last);
        Ok(Found { first, last, stretch, closes_read, blocks_read })
    }

    /// The bar that a stretch begins with: of a time the first bar that is not before it.
    fn first(&self, place: Place) -> Result<u64, Problem> {
        Ok(self.bar(place)?.unwrap_or_else(|time| match self.rising {
            true => self.times.words.words().partition_point(|there| (*there as i64) < time) as u64,
            false => self.times.iter().position(|there| there >= time).unwrap_or(self.times.len()) as u64,
        }))
    }

    /// The bar that it ends with: of a time the last bar that is not after it. Before all bars there is none: a number that no bar has.
    fn last(&self, place: Place) -> Result<u64, Problem> {
        let before = |end: usize| (end as u64).wrapping_sub(1);
        Ok(self.bar(place)?.unwrap_or_else(|time| match self.rising {
            true => before(self.times.words.words().partition_point(|there| *there as i64 <= time)),
            false => {
                let found = self.times.iter().enumerate().filter(|(_, there)| *there <= time).last();
                before(found.map_or(0, |(at, _)| at + 1))
            }
        }))
    }

    /// A bar's number, or else a time as the file counts it.
    fn bar(&self, place: Place) -> Result<Result<u64, i64>, Problem> {
        let times = || match self.between {
            (first, last) if first <= last => Times::between(first, last),
            _ => Times::between(0, 0),
        };
        let wrong = |problem| Problem { place: String::new(), ..problem };
        Ok(match place {
            Place::Bar(number) => Ok(number),
            Place::Time(time) => Err(time),
            Place::Either(n) => u64::try_from(n).ok().filter(|n| *n < self.len()).ok_or(n),
            Place::Moment(moment) => Err(times().unit(&self.name, &moment).map_err(wrong)?),
            Place::OfDay(time) => Err(times().once(&self.name, time).map_err(wrong)?),
        })
    }
}

fn refused(problem: Problem, error: Error) -> Problem {
    match error {
        Error::Refused(refusal) => Problem { refusal: Some(refusal), ..problem },
        other => Problem { text: other.to_string(), ..problem },
    }
}

/// How many closes and how many blocks a question reads: the bars before the first whole block, the whole blocks, the bars after them
/// (crates/blocks/specs/Reads.antt, `reads`).
fn reads(first: u64, last: u64) -> (u64, u64) {
    let block = BLOCK_BARS as u64;
    let bars = last + 1 - first;
    let front = ((block - first % block) % block).min(bars);
    let blocks = (bars - front) / block;
    (bars - block * blocks, blocks)
}

#[cfg(test)]
mod tests {
    use super::*;

    #[test]
    fn few_closes_are_read() {
        assert_eq!((reads(0, 63), reads(1, 64), reads(5, 5)), ((0, 1), (64, 0), (1, 0)));
        assert_eq!((reads(1, 126), reads(1, 128), reads(0, 525_599)), ((126, 0), (64, 1), (32, 8212)));
        for first in 0..200 {
            for last in first..700 {
                let (closes, blocks) = reads(first, last);
                assert!(closes <= 126 && closes + 64 * blocks == last + 1 - first, "{first} {last}");
            }
        }
    }
}
