//! Exact totals as they are written: counts by reason, wins and losses, and the sum of all pnl to the last digit.

use serde::{Deserialize, Serialize};
use spill::{swept, Words};
use yshturpa::layout::TOTAL_WORDS;
use yshturpa::{Reason, Refusal, Totals};

use super::exact;
use crate::run::outcome::REASONS;

#[derive(Clone, Debug, PartialEq, Eq, Serialize, Deserialize)]
#[serde(deny_unknown_fields)]
pub struct Sum {
    pub left_by: LeftBy,
    pub wins: u64,
    pub losses: u64,
    /// The sum of the trades' pnl, every digit.
    pub exact_pnl: String,
}

/// How many trades ended by each reason.
#[derive(Clone, Copy, Debug, Default, PartialEq, Eq, Serialize, Deserialize)]
#[serde(deny_unknown_fields)]
pub struct LeftBy {
    pub signal: u64,
    pub stop_loss: u64,
    pub trailing_stop: u64,
    pub take_profit: u64,
    pub liquidation: u64,
    pub end: u64,
}

impl LeftBy {
    fn of(totals: &Totals) -> LeftBy {
        let count = |reason| totals.ended_by(reason);
        LeftBy {
            signal: count(Reason::Signal),
            stop_loss: count(Reason::StopLoss),
            trailing_stop: count(Reason::TrailingStop),
            take_profit: count(Reason::TakeProfit),
            liquidation: count(Reason::Liquidation),
            end: count(Reason::End),
        }
    }

    /// In the reasons' order.
    pub fn counts(&self) -> [(Reason, u64); REASONS.len()] {
        let LeftBy { signal, stop_loss, trailing_stop, take_profit, liquidation, end } = *self;
        let counts = [signal, stop_loss, trailing_stop, take_profit, liquidation, end];
        std::array::from_fn(|at| (REASONS[at], counts[at]))
    }
}

impl Sum {
    pub fn of(totals: &Totals) -> Sum {
        Sum {
            left_by: LeftBy::of(totals),
            wins: totals.wins(),
            losses: totals.losses(),
            exact_pnl: exact::decimal(totals.exact_pnl()),
        }
    }

    /// Of the trades of a run, in their words; refused where one has no finite pnl.
    pub fn of_trades(trades: &Words) -> Result<Sum, Refusal> {
        let mut totals = Totals::default();
        swept(&[trades], || totals.add_words(trades.words()))?;
        Ok(Sum::of(&totals))
    }

    /// The totals that were written so; none where no totals are.
    pub fn totals(&self) -> Option<Totals> {
        let mut words = [0; TOTAL_WORDS];
        let counts = self.left_by.counts().map(|(_, count)| count);
        words[..counts.len()].copy_from_slice(&counts);
        [words[counts.len()], words[counts.len() + 1]] = [self.wins, self.losses];
        let room = Totals::default().exact_pnl().len();
        let from = counts.len() + 2;
        words[from..from + room].copy_from_slice(&exact::words(&self.exact_pnl, room)?);
        // Joined to nothing they are judged, and get their nearest float.
        let mut totals = Totals::default();
        totals.join(&Totals::of_words(words)).ok()?;
        Some(totals)
    }
}
