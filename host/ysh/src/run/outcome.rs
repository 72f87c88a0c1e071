//! What came of a run.

use std::sync::Arc;

use yshturpa::{Metrics, Point, Reason, Trade};

use super::results::{Results, Tally};
use super::used::used;
use super::Ready;
use crate::bars::{over, Refusals, Way};
use crate::lists::List;
use crate::problem::Problem;
use crate::show::shown;

/// A run over every bar of a file, finished.
pub struct Outcome {
    pub file: String,
    pub bars_file: String,
    /// What a strategy says that it trades, and on which bars; empty for a table.
    pub title: String,
    pub capital: f64,
    /// The rules, sizing and costs that it used, in words.
    pub used: Vec<(&'static str, String)>,
    pub metrics: Metrics,
    pub trades: List<Trade>,
    pub tally: Tally,
    pub equity: List<Point>,
    /// The close of each bar that was done, and perhaps of some after; none where no page is drawn.
    pub closes: Arc<List<f64>>,
    pub fees: f64,
    pub refusals: Refusals,
    pub unread: Vec<String>,
    /// What looks wrong in the bars.
    pub odd: Vec<String>,
    /// What may make the answer another than was meant.
    pub doubts: Vec<String>,
    pub notes: Vec<String>,
}

/// The reasons in their numbers' order.
pub const REASONS: [Reason; 6] =
    [Reason::Signal, Reason::StopLoss, Reason::TrailingStop, Reason::TakeProfit, Reason::Liquidation, Reason::End];

/// What a reason is called in files.
pub fn reason_name(reason: Reason) -> &'static str {
    match reason {
        Reason::Signal => "signal",
        Reason::StopLoss => "stop_loss",
        Reason::TrailingStop => "trailing_stop",
        Reason::TakeProfit => "take_profit",
        Reason::Liquidation => "liquidation",
        Reason::End => "end",
    }
}

/// The same for people.
pub fn reason_words(reason: Reason) -> String {
    reason_name(reason).replace('_', " ")
}

impl Outcome {
    /// A run to the end; with the closes where a page is to be drawn.
    pub fn of(ready: Ready, way: Way, closes: bool) -> Result<Outcome, Problem> {
        let notes = ready.notes();
        let Ready { source, settings, bars, mut engine, strict } = ready;
        let mut results = Results::new(closes);
        let walked = over(&bars, &mut engine, way, &mut results)?;
        let metrics = results.finished(&mut engine, settings.capital, |refusal| source.refused(refusal))?;
        let title = source.strategy.as_ref().map(|s| format!("{} {}", s.symbol, s.timeframe)).unwrap_or_default();
        Ok(Outcome {
            used: used(&source, &settings),
            file: source.file,
            bars_file: bars.name.clone(),
            title: shown(title.trim()),
            capital: settings.capital,
            metrics,
            tally: Tally::of(&results.trades),
            trades: results.trades,
            equity: results.points,
            closes: Arc::new(results.closes.unwrap_or_default()),
            fees: engine.state().fees_paid(),
            refusals: walked.refusals,
            unread: bars.columns.unread().into_iter().map(shown).collect(),
            odd: bars.doubts(strict)?,
            doubts: source.doubts,
            notes,
        })
    }

    /// The equity after the last bar, the closing fee counted; the capital where there was none.
    pub fn last_equity(&self) -> f64 {
        self.equity.last().map_or(self.capital, |point| point.equity)
    }

    /// The nine metrics, each with its name in files, its name for people, and its unit.
    pub fn nine(&self) -> [(&'static str, &'static str, &'static str, f64); 9] {
        let m = &self.metrics;
        [
            ("pnl", "profit and loss", "", m.pnl),
            ("return_pct", "return", "%", m.return_pct),
            ("sharpe", "Sharpe ratio", "", m.sharpe),
            ("sortino", "Sortino ratio", "", m.sortino),
            ("calmar", "Calmar ratio", "", m.calmar),
            ("max_drawdown", "greatest drawdown", "%", m.max_drawdown),
            ("win_rate", "trades won", "%", m.win_rate),
            ("profit_factor", "profit factor", "", m.profit_factor),
            ("num_trades", "trades", "", m.num_trades as f64),
        ]
    }
}

/// What a figure is of, where its name does not say it.
pub fn of(name: &str) -> &'static str {
    match name {
        "return_pct" => "of the capital",
        "sharpe" | "sortino" => "per bar, not annualised",
        "calmar" => "return by greatest drawdown, not annualised",
        "max_drawdown" => "of the highest equity so far",
        "win_rate" => "of all trades",
        "profit_factor" => "what was won by what was lost",
        _ => "",
    }
}

#[cfg(test)]
pub mod tests {
    use super::*;

    pub fn trade() -> Trade {
        Trade {
            entry_time: 0,
            exit_time: 0,
            entry_price: 1.0,
            exit_price: 1.0,
            qty: 1.0,
            pnl: 0.0,
            return_pct: 0.0,
            reason: Reason::Signal,
            funding: 0.0,
            worst: 1.0,
        }
    }
}
