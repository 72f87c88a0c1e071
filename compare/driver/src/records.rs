//! Records as their words, beyond what `yshturpa::layout` says of them.

use oracle::portfolio::Trade;
use oracle::words::Line;
use yshturpa::calls::PositionWords;
use yshturpa::layout::{BAR_FIXED, ROW_FIXED};

/// The words of a trade that the Rust has not, as no metric reads them.
const UNREAD: [u64; 2] = [0x5a5a_a5a5_5a5a_a5a5, 0x7ff0_0000_0000_0000];

/// A trade of the Rust's eight words, and two more that no metric reads.
pub fn ten_words(line: Line, trade: &Trade) -> Line {
    UNREAD.into_iter().fold(line.trade(trade), Line::word)
}

pub fn bar_words(slots: usize) -> usize {
    BAR_FIXED + slots
}

pub fn row_words(slots: usize) -> usize {
    ROW_FIXED + slots
}

/// What a rule reads of the position: any words, those of no position too.
#[derive(Debug, Clone, Copy)]
pub struct Position {
    pub qty: u64,
    pub entered: u64,
    pub entry_bar: u64,
    pub bars_seen: u64,
}

impl Position {
    pub fn of(words: &[u64]) -> Self {
        Self {
            qty: words[0],
            entered: words[1],
            entry_bar: words[2],
            bars_seen: words[3],
        }
    }

    pub fn words(self) -> PositionWords {
        [self.qty, self.entered, self.entry_bar, self.bars_seen]
    }
}
