//! What else a run tells, worked out here from its trades, equity and closes: no part of the nine metrics, which are the library's.

use chrono::Datelike;
use yshturpa::Trade;

use super::charts::{clock, places};
use super::outcome::Outcome;

pub struct Study {
    /// What the close did from the first bar to the last, in percent.
    pub hold: Option<f64>,
    /// The bars at which a position was held for a part at least, in percent of all.
    pub exposure: Option<f64>,
    pub drawdown: Option<Drawdown>,
    /// All trades, those that were long, and those that were short.
    pub sides: [Side; 3],
    /// Where there are several.
    pub months: Vec<Month>,
}

/// The most bars in a row whose equity was under the highest before.
#[derive(Clone, Copy, Debug, PartialEq, Eq)]
pub struct Drawdown {
    pub bars: usize,
    pub first: i64,
    pub last: i64,
    /// Whether the equity was still under it at the end.
    pub open: bool,
}

/// Some trades.
#[derive(Clone, Debug, Default, PartialEq)]
pub struct Side {
    pub name: &'static str,
    pub trades: usize,
    pub won: usize,
    pub lost: usize,
    pub pnl: f64,
    pub average_win: Option<f64>,
    pub average_loss: Option<f64>,
    pub best: Option<f64>,
    pub worst: Option<f64>,
    /// The most in a row that were won, and that were lost.
    pub streaks: [usize; 2],
}

/// A month: its name, the equity at its end, and what that is over the end of the month before, in percent.
#[derive(Clone, Debug, PartialEq)]
pub struct Month {
    pub name: String,
    pub equity: f64,
    pub change: f64,
}

impl Study {
    pub fn of(outcome: &Outcome) -> Study {
        let side = |name, which: fn(&Trade) -> bool| Side::of(name, outcome.trades.iter().filter(which));
        let closes = &outcome.closes;
        Study {
            hold: hold(closes.first(), outcome.equity.len().checked_sub(1).and_then(|last| closes.get(last))),
            exposure: exposure(outcome),
            drawdown: drawdown(outcome),
            sides: [
                side("all", |_| true),
                side("long", |trade| trade.qty > 0.0),
                side("short", |trade| trade.qty < 0.0),
            ],
            months: months(outcome),
        }
    }
}

impl Side {
    fn of(name: &'static str, trades: impl Iterator<Item = Trade>) -> Side {
        let mut side = Side { name, ..Side::default() };
        let (mut sums, mut runs) = ([0.0; 2], [0; 2]);
        for pnl in trades.map(|trade| trade.pnl) {
            side.trades += 1;
            side.pnl += pnl;
            side.best = Some(side.best.map_or(pnl, |best| best.max(pnl)));
            side.worst = Some(side.worst.map_or(pnl, |worst| worst.min(pnl)));
            for (at, counts) in [pnl > 0.0, pnl < 0.0].into_iter().enumerate() {
                runs[at] = if counts { runs[at] + 1 } else { 0 };
                side.streaks[at] = side.streaks[at].max(runs[at]);
                sums[at] += if counts { pnl } else { 0.0 };
            }
            side.won += usize::from(pnl > 0.0);
            side.lost += usize::from(pnl < 0.0);
        }
        let mean = |sum: f64, count: usize| (count > 0).then(|| sum / count as f64);
        [side.average_win, side.average_loss] = [mean(sums[0], side.won), mean(sums[1], side.lost)];
        side
    }
}

fn hold(first: Option<f64>, last: Option<f64>) -> Option<f64> {
    let (first, last) = (first?, last?);
    Some((last - first) / first * 100.0).filter(|change| change.is_finite())
}

/// Trades come one after another, and two may share a bar, which counts once.
fn exposure(outcome: &Outcome) -> Option<f64> {
    let (mut held, mut next) = (0, 0);
    for [entry, exit] in places(outcome) {
        let first = entry.max(next);
        if exit >= first {
            held += exit + 1 - first;
            next = exit + 1;
        }
    }
    let bars = outcome.equity.len();
    (bars > 0).then(|| held as f64 / bars as f64 * 100.0)
}

fn drawdown(outcome: &Outcome) -> Option<Drawdown> {
    let (mut peak, mut began, mut longest) = (f64::NEG_INFINITY, None, None::<Drawdown>);
    for (bar, point) in outcome.equity.iter().enumerate() {
        if point.equity >= peak {
            peak = point.equity;
            began = None;
            continue;
        }
        let (from, first) = *began.get_or_insert((bar, point.time));
        let open = bar + 1 == outcome.equity.len();
        if longest.map_or(true, |longest| bar + 1 - from > longest.bars) {
            longest = Some(Drawdown { bars: bar + 1 - from, first, last: point.time, open });
        }
    }
    longest
}

/// The most months that are told: those of 1990 to 2100. Where there are more, times fall.
const MONTHS: usize = 110 * 12;

fn months(outcome: &Outcome) -> Vec<Month> {
    let clock = clock(outcome);
    let mut months: Vec<Month> = Vec::new();
    let (mut before, mut now) = (outcome.capital, None);
    for point in outcome.equity.iter() {
        let Some(date) = clock.date(point.time) else { return Vec::new() };
        if now.replace((date.year(), date.month())) != Some((date.year(), date.month())) {
            if months.len() == MONTHS {
                return Vec::new();
            }
            before = months.last().map_or(before, |month| month.equity);
            months.push(Month { name: date.format("%Y-%m").to_string(), equity: 0.0, change: 0.0 });
        }
        if let Some(month) = months.last_mut() {
            month.equity = point.equity;
            month.change = (month.equity - before) / before * 100.0;
        }
    }
    if months.len() < 2 {
        months.clear();
    }
    months
}

#[cfg(test)]
mod tests {
    use super::*;

    #[test]
    fn streaks_and_averages() {
        let trade = |pnl: f64| Trade { pnl, ..crate::run::outcome::tests::trade() };
        let side = Side::of("all", [1.0, 3.0, -2.0, 0.0, -1.0, -3.0, 4.0].into_iter().map(trade));
        assert_eq!((side.trades, side.won, side.lost, side.pnl), (7, 3, 3, 2.0));
        assert_eq!((side.average_win, side.average_loss), (Some(8.0 / 3.0), Some(-2.0)));
        assert_eq!((side.best, side.worst, side.streaks), (Some(4.0), Some(-3.0), [2, 2]));
        assert_eq!(Side::of("none", [].into_iter()).average_win, None);
    }

    #[test]
    fn holding_is_of_the_first_close() {
        let of = |first, last| hold(Some(first), Some(last));
        assert_eq!((of(50.0, 60.0), hold(None, None), of(0.0, 1.0)), (Some(20.0), None, None));
    }
}
