//! Equity points, trades and the nine metrics, and the words that they are to the engine.

use crate::layout::{METRIC_WORDS, POINT_WORDS, TRADE_WORDS};
use crate::{calls, Refusal};

/// The equity at a bar's close.
#[derive(Clone, Copy, Debug, PartialEq)]
pub struct Point {
    pub time: i64,
    pub equity: f64,
}

impl Point {
    /// By its words.
    pub fn of(words: &[u64]) -> Point {
        Point { time: words[0] as i64, equity: f64::from_bits(words[1]) }
    }

    /// As the engine has it.
    pub fn words(&self) -> [u64; POINT_WORDS] {
        [self.time as u64, self.equity.to_bits()]
    }
}

/// Why a position was left.
#[derive(Clone, Copy, Debug, PartialEq, Eq, Hash)]
pub enum Reason {
    Signal = 1,
    StopLoss,
    TrailingStop,
    TakeProfit,
    Liquidation,
    End,
}

impl Reason {
    fn of(number: u64) -> Reason {
        match number {
            1 => Reason::Signal,
            2 => Reason::StopLoss,
            3 => Reason::TrailingStop,
            4 => Reason::TakeProfit,
            5 => Reason::Liquidation,
            _ => Reason::End,
        }
    }
}

/// A position that was entered and left.
#[derive(Clone, Copy, Debug, PartialEq)]
pub struct Trade {
    pub entry_time: i64,
    pub exit_time: i64,
    pub entry_price: f64,
    pub exit_price: f64,
    pub qty: f64,
    pub pnl: f64,
    pub return_pct: f64,
    pub reason: Reason,
    /// Funding paid during it, which is not part of the pnl; below 0 it was received.
    pub funding: f64,
    /// The least favourable price, from the entry bar to the closing bar.
    pub worst: f64,
}

impl Trade {
    /// By its words.
    pub fn of(words: &[u64]) -> Trade {
        let x = |i: usize| f64::from_bits(words[i]);
        Trade {
            entry_time: words[0] as i64,
            exit_time: words[1] as i64,
            entry_price: x(2),
            exit_price: x(3),
            qty: x(4),
            pnl: x(5),
            return_pct: x(6),
            reason: Reason::of(words[7]),
            funding: x(8),
            worst: x(9),
        }
    }

    /// As the engine has it.
    pub fn words(&self) -> [u64; TRADE_WORDS] {
        let [a, b, c, d, e] =
            [self.entry_price, self.exit_price, self.qty, self.pnl, self.return_pct].map(f64::to_bits);
        let [funding, worst] = [self.funding, self.worst].map(f64::to_bits);
        [self.entry_time as u64, self.exit_time as u64, a, b, c, d, e, self.reason as u64, funding, worst]
    }
}

/// The nine metrics of a run.
#[derive(Clone, Copy, Debug, PartialEq)]
pub struct Metrics {
    pub pnl: f64,
    pub return_pct: f64,
    pub sharpe: f64,
    pub sortino: f64,
    pub calmar: f64,
    pub max_drawdown: f64,
    pub win_rate: f64,
    pub profit_factor: f64,
    pub num_trades: u64,
}

impl Metrics {
    pub(crate) fn of(words: &[u64; METRIC_WORDS]) -> Metrics {
        let x = |i: usize| f64::from_bits(words[i]);
        Metrics {
            pnl: x(0),
            return_pct: x(1),
            sharpe: x(2),
            sortino: x(3),
            calmar: x(4),
            max_drawdown: x(5),
            win_rate: x(6),
            profit_factor: x(7),
            num_trades: words[8],
        }
    }
}

/// The nine metrics of equity points and trades, from the capital at the start.
pub fn metrics(capital: f64, equity: &[Point], trades: &[Trade]) -> Result<Metrics, Refusal> {
    let points: Vec<u64> = equity.iter().flat_map(Point::words).collect();
    let records: Vec<u64> = trades.iter().flat_map(Trade::words).collect();
    metrics_of_words(capital, &points, &records)
}

/// The same of points and trades in their words.
pub fn metrics_of_words(capital: f64, points: &[u64], trades: &[u64]) -> Result<Metrics, Refusal> {
    let mut words = [0; METRIC_WORDS];
    Refusal::of(calls::metrics(capital.to_bits(), points, trades, &mut words))?;
    Ok(Metrics::of(&words))
}

#[cfg(test)]
mod tests {
    use super::*;

    #[test]
    fn a_trade_is_its_words() {
        let trade = Trade {
            entry_time: -5,
            exit_time: 7,
            entry_price: 1.5,
            exit_price: 2.5,
            qty: -3.0,
            pnl: -3.0,
            return_pct: 0.25,
            reason: Reason::TakeProfit,
            funding: -0.5,
            worst: 1.25,
        };
        assert_eq!(Trade::of(&trade.words()), trade);
    }

    #[test]
    fn metrics_of_a_rise_and_a_win() {
        let point = |time, equity| Point { time, equity };
        let won = Trade { pnl: 10.0, ..Trade::of(&[0; TRADE_WORDS]) };
        let found = metrics(100.0, &[point(0, 100.0), point(1, 110.0)], &[won]).unwrap();
        assert_eq!((found.pnl, found.win_rate, found.num_trades), (10.0, 100.0, 1));
    }
}
