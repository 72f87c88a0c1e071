//! Exact totals over the trades of many runs: the same words in every order and grouping.

use crate::layout::TOTAL_WORDS;
use crate::{calls, Reason, Refusal, Trade};

/// How many trades ended by each reason, won and lost, and the sum of all pnl, exactly. `Totals::default()` is of no trades.
#[derive(Clone, Copy, Debug, PartialEq, Eq)]
pub struct Totals {
    words: [u64; TOTAL_WORDS],
}

impl Default for Totals {
    fn default() -> Totals {
        Totals { words: [0; TOTAL_WORDS] }
    }
}

impl Totals {
    /// Where a record has its wins, its losses, its sum and its float; before them stand the six reasons.
    const WINS: usize = 6;
    const LOSSES: usize = 7;
    const SUM: usize = 8;
    const FLOAT: usize = 42;

    /// Totals as they were kept or sent. They are judged when they are next added to, or joined.
    pub fn of_words(words: [u64; TOTAL_WORDS]) -> Totals {
        Totals { words }
    }

    /// The words to keep or to send.
    pub fn words(&self) -> [u64; TOTAL_WORDS] {
        self.words
    }

    /// Adds the trades of a run. A refusal leaves the totals as they were.
    pub fn add(&mut self, trades: &[Trade]) -> Result<(), Refusal> {
        let records: Vec<u64> = trades.iter().flat_map(Trade::words).collect();
        self.add_words(&records)
    }

    /// The same of trades in their words.
    pub fn add_words(&mut self, trades: &[u64]) -> Result<(), Refusal> {
        Refusal::of(calls::totals(&mut self.words, trades))
    }

    /// Adds the totals of another machine. A refusal leaves these as they were.
    pub fn join(&mut self, other: &Totals) -> Result<(), Refusal> {
        Refusal::of(calls::totals_join(&mut self.words, &other.words))
    }

    /// How many trades ended by a reason.
    pub fn ended_by(&self, reason: Reason) -> u64 {
        self.words[reason as usize - 1]
    }

    /// How many trades there are.
    pub fn trades(&self) -> u64 {
        self.words[..Self::WINS].iter().sum()
    }

    /// Trades with a pnl above 0.
    pub fn wins(&self) -> u64 {
        self.words[Self::WINS]
    }

    /// Trades with a pnl below 0.
    pub fn losses(&self) -> u64 {
        self.words[Self::LOSSES]
    }

    /// The float nearest to the sum of all pnl, ties to even.
    pub fn pnl(&self) -> f64 {
        f64::from_bits(self.words[Self::FLOAT])
    }

    /// The sum of all pnl in units of 2^-1074: two's complement, lowest word first.
    pub fn exact_pnl(&self) -> &[u64] {
        &self.words[Self::SUM..Self::FLOAT]
    }
}
