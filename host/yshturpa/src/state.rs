//! The state between two bars, by name.

use crate::layout::{state, POSITION_WORDS, STATE_WORDS};

/// The order that may be working.
#[derive(Clone, Copy, Debug, PartialEq, Eq)]
pub enum Order {
    Long,
    Short,
    Exit,
}

/// What a working entry waits for, in prices. A market order waits for none.
#[derive(Clone, Copy, Debug, PartialEq)]
pub enum OrderLevel {
    Market,
    Limit { level: f64 },
    Stop { level: f64 },
    StopLimit { stop: f64, limit: f64 },
}

/// What the position rules look at.
#[derive(Clone, Copy, Debug, PartialEq, Default)]
pub struct Position {
    /// Below 0 for a short.
    pub qty: f64,
    pub entry_bar: Option<u64>,
    /// Bars seen, the one that is asked about counted.
    pub bars_seen: u64,
}

impl Position {
    pub(crate) fn words(&self) -> [u64; POSITION_WORDS] {
        [self.qty.to_bits(), self.entry_bar.is_some() as u64, self.entry_bar.unwrap_or(0), self.bars_seen]
    }
}

/// The state of a run after its last bar. Its words are the library's; they are read here, never made up.
#[derive(Clone, Copy, Debug, PartialEq, Eq)]
pub struct State {
    pub(crate) words: [u64; STATE_WORDS],
}

impl State {
    pub fn words(&self) -> &[u64; STATE_WORDS] {
        &self.words
    }

    pub fn bars_seen(&self) -> u64 {
        self.words[state::BARS_SEEN]
    }

    pub fn rows_held(&self) -> u64 {
        self.words[state::ROWS_HELD]
    }

    /// The working order and the bars that it still waits.
    pub fn order(&self) -> Option<(Order, u64)> {
        let order = match self.words[state::ORDER] {
            1 => Order::Long,
            2 => Order::Short,
            3 => Order::Exit,
            _ => return None,
        };
        Some((order, self.words[state::ORDER_DELAY]))
    }

    /// What the working order waits for; a market order's nothing for an exit, and where there is no order.
    pub fn order_level(&self) -> OrderLevel {
        let (level, limit) = (self.float(state::ORDER_LEVEL), self.float(state::ORDER_LIMIT));
        match self.words[state::ORDER_KIND] {
            1 => OrderLevel::Limit { level },
            2 => OrderLevel::Stop { level },
            3 => OrderLevel::StopLimit { stop: level, limit },
            _ => OrderLevel::Market,
        }
    }

    pub fn position(&self) -> Position {
        Position {
            qty: self.float(state::QTY),
            entry_bar: (self.words[state::ENTERED] != 0).then_some(self.words[state::ENTRY_BAR]),
            bars_seen: self.bars_seen(),
        }
    }

    pub fn cash(&self) -> f64 {
        self.float(state::CASH)
    }

    pub fn entry_price(&self) -> f64 {
        self.float(state::ENTRY_PRICE)
    }

    pub fn entry_time(&self) -> i64 {
        self.words[state::ENTRY_TIME] as i64
    }

    pub fn entry_fee(&self) -> f64 {
        self.float(state::ENTRY_FEE)
    }

    pub fn fees_paid(&self) -> f64 {
        self.float(state::FEES_PAID)
    }

    /// The most favourable price since the entry.
    pub fn extreme(&self) -> f64 {
        self.float(state::EXTREME)
    }

    pub fn last_time(&self) -> i64 {
        self.words[state::LAST_TIME] as i64
    }

    pub fn last_close(&self) -> f64 {
        self.float(state::LAST_CLOSE)
    }

    /// What the open trade has paid in funding; below 0 it was received.
    pub fn open_funding(&self) -> f64 {
        self.float(state::OPEN_FUNDING)
    }

    /// The least favourable price of the open trade so far.
    pub fn open_worst(&self) -> f64 {
        self.float(state::OPEN_WORST)
    }

    fn float(&self, word: usize) -> f64 {
        f64::from_bits(self.words[word])
    }
}
