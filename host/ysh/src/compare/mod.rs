//! Two runs side by side: of two files, or of two libraries over the same strategy and bars.

pub mod asked;
mod chart;
pub mod json;
pub mod libraries;
pub mod page;
mod side;
pub mod text;

use std::collections::BTreeMap;

pub use side::Side;
use spill::swept;
use yshturpa::{compare_words, Difference, Two};

use crate::problem::Problem;

/// Two runs, and all in which they differ.
pub struct Compared {
    pub sides: [Side; 2],
    /// The first bar whose equity differs, and both words.
    pub equity: Option<(usize, Two)>,
    /// The trades that differ, from 0, each with its words that do.
    pub trades: BTreeMap<usize, Vec<(usize, Two)>>,
    /// From which trade on one alone has trades, and how many each has.
    pub more_trades: Option<(usize, Two)>,
    pub more_points: Option<(usize, Two)>,
}

/// The words of a trade by name, as the files of `ysh run` have them.
pub const WORDS: [&str; 10] =
    ["entry_time", "exit_time", "entry_price", "exit_price", "qty", "pnl", "return_pct", "reason", "funding", "worst"];

impl Compared {
    /// What differs is the library's to say.
    pub fn of(sides: [Side; 2]) -> Result<Compared, Problem> {
        let [a, b] = &sides;
        let [[a_points, a_trades], [b_points, b_trades]] = [a, b].map(|side| [&side.equity.words, &side.trades.words]);
        let lines = swept(&[a_points, a_trades, b_points, b_trades], || {
            compare_words((a_points.words(), a_trades.words()), (b_points.words(), b_trades.words()))
        });
        let lines = lines.map_err(|refusal| Problem::refused(&a.name, refusal))?;
        let (mut equity, mut more_trades, mut more_points) = (None, None, None);
        let mut trades: BTreeMap<usize, Vec<(usize, Two)>> = BTreeMap::new();
        for line in lines {
            match line {
                Difference::Equity { point, words } => equity = Some((point, words)),
                Difference::Trade { trade, word, words } => trades.entry(trade).or_default().push((word, words)),
                Difference::MoreTrades { from, counts } => more_trades = Some((from, counts)),
                Difference::MorePoints { from, counts } => more_points = Some((from, counts)),
            }
        }
        Ok(Compared { sides, equity, trades, more_trades, more_points })
    }

    /// What a function gives for each of the two.
    pub fn both<'a, T>(&'a self, of: impl Fn(&'a Side) -> T) -> [T; 2] {
        [of(&self.sides[0]), of(&self.sides[1])]
    }

    pub fn same(&self) -> bool {
        self.equity.is_none() && self.trades.is_empty() && self.more_trades.is_none() && self.more_points.is_none()
    }

    /// The bar at which the curves part: the first whose equity differs, or that one run alone has.
    pub fn parts_at(&self) -> Option<usize> {
        self.equity.map(|(bar, _)| bar).or(self.more_points.map(|(from, _)| from))
    }
}
