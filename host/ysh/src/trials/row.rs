//! A run as a row: what it came to, or why it was refused.

use serde::{Deserialize, Serialize};
use yshturpa::{Point, Refusal, Trade};

use super::sum::Sum;
use crate::problem::Problem;
use crate::run::json::Exact;
use crate::run::outcome::Outcome;
use crate::show::shown;

#[derive(Clone, Debug, PartialEq, Serialize, Deserialize)]
#[serde(deny_unknown_fields)]
pub struct Row {
    /// Its number among all runs, from 0.
    pub run: u64,
    pub file: String,
    pub bars_file: String,
    pub outcome: Came,
}

#[derive(Clone, Debug, PartialEq, Serialize, Deserialize)]
#[serde(rename_all = "snake_case")]
pub enum Came {
    Ran(Box<Figures>),
    Refused(Refused),
}

#[derive(Clone, Debug, PartialEq, Serialize, Deserialize)]
#[serde(deny_unknown_fields)]
pub struct Figures {
    pub bars: u64,
    pub trades: u64,
    pub pnl: Exact,
    pub return_pct: Exact,
    pub sharpe: Exact,
    pub max_drawdown: Exact,
    /// How far a price went against the entry of a trade, at most, in percent of that entry.
    pub worst_pct: Exact,
    pub refused_bars: u64,
    pub totals: Sum,
    /// The equity at some of the closes, evenly apart, the last among them.
    pub curve: Vec<Exact>,
    /// What may make the answer another than was meant, each with its file.
    pub doubts: Vec<String>,
}

/// A problem, by its parts.
#[derive(Clone, Debug, PartialEq, Eq, Serialize, Deserialize)]
#[serde(deny_unknown_fields)]
pub struct Refused {
    pub file: String,
    pub place: String,
    pub text: String,
    /// The library's number and place, where it refused.
    pub refused: Option<[u32; 2]>,
}

/// As many points as a row's curve has.
const POINTS: usize = 60;

impl Figures {
    /// Refused where a trade has no finite pnl, which no exact total has a place for.
    pub fn of(outcome: &Outcome) -> Result<Figures, Problem> {
        let sum = Sum::of_trades(&outcome.trades.words).map_err(|refusal| Problem::refused(&outcome.file, refusal))?;
        let metrics = &outcome.metrics;
        let rules = outcome.doubts.iter().map(|doubt| format!("{}: {doubt}", outcome.file));
        let bars = outcome.odd.iter().map(|doubt| format!("{}: {doubt}", outcome.bars_file));
        Ok(Figures {
            bars: outcome.equity.len() as u64,
            trades: outcome.trades.len() as u64,
            pnl: Exact(metrics.pnl),
            return_pct: Exact(metrics.return_pct),
            sharpe: Exact(metrics.sharpe),
            max_drawdown: Exact(metrics.max_drawdown),
            worst_pct: Exact(outcome.trades.iter().map(|trade| against(&trade)).fold(0.0, f64::max)),
            refused_bars: outcome.refusals.count,
            totals: sum,
            curve: curve(outcome.equity.len(), |place| outcome.equity.get(place)),
            doubts: rules.chain(bars).map(|doubt| shown(&doubt)).collect(),
        })
    }
}

/// How far the price went against a trade's entry, in percent of it.
fn against(trade: &Trade) -> f64 {
    let share = (trade.worst - trade.entry_price) / trade.entry_price * 100.0;
    if trade.qty > 0.0 {
        -share
    } else {
        share
    }
}

fn curve(bars: usize, point: impl Fn(usize) -> Option<Point>) -> Vec<Exact> {
    let count = bars.min(POINTS);
    let place = |n: usize| if count < 2 { 0 } else { n * (bars - 1) / (count - 1) };
    (0..count).filter_map(|n| point(place(n))).map(|point| Exact(point.equity)).collect()
}

impl From<Problem> for Refused {
    fn from(problem: Problem) -> Refused {
        let refused = problem.refusal.map(|refusal| [refusal.number, refusal.place]);
        Refused { file: problem.file, place: problem.place, text: problem.text, refused }
    }
}

impl Refused {
    pub fn problem(&self) -> Problem {
        let refusal = self.refused.map(|[number, place]| Refusal { number, place });
        Problem { refusal, ..Problem::input(&self.file, &self.place, &self.text) }
    }
}

impl Row {
    pub fn ran(&self) -> Option<&Figures> {
        match &self.outcome {
            Came::Ran(figures) => Some(figures),
            Came::Refused(_) => None,
        }
    }

    pub fn refused(&self) -> Option<&Refused> {
        match &self.outcome {
            Came::Ran(_) => None,
            Came::Refused(refused) => Some(refused),
        }
    }
}

#[cfg(test)]
mod tests {
    use super::*;

    #[test]
    fn a_curve_begins_and_ends_with_the_run() {
        let point = |n: usize| Some(Point { time: n as i64, equity: n as f64 });
        let drawn = |n: usize| curve(n, point).into_iter().map(|Exact(x)| x).collect::<Vec<_>>();
        let long = drawn(1441);
        assert_eq!((long.len(), long[0], long[POINTS - 1]), (POINTS, 0.0, 1440.0));
        assert_eq!((drawn(0), drawn(1), drawn(3)), (vec![], vec![0.0], vec![0.0, 1.0, 2.0]));
    }
}
