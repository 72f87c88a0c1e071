//! What is damaged: small runs that go on while they are not, each with its table, settings, rooms and bars.

use oracle::lists::dice::Dice;
use yshturpa::layout::{POINT_WORDS, SETTING_WORDS, STATE_WORDS, TRADE_WORDS};

use crate::case::{bar_words, setting_words, Case};
use crate::cases;
use crate::ours::{translated, Ours};
use crate::records::row_words;

/// Points and trades that the rooms have places for.
const POINTS: usize = 12;
const TRADES: usize = 4;

pub struct Base {
    pub table: Vec<u8>,
    pub settings: [u64; SETTING_WORDS],
    pub lists: [Vec<u8>; 4],
    bars: Vec<Vec<u64>>,
    next: usize,
    fresh: Vec<u64>,
    pub state: Vec<u64>,
    pub rows: Vec<u64>,
    pub equity: Vec<u64>,
    pub trades: Vec<u64>,
}

impl Base {
    fn of(case: &Case, dice: &mut Dice) -> Self {
        let table = case.table.bytes();
        let list = |tree| translated(&table, tree).expect("an accepted table");
        let run = Ours::with_room(case, case.settings.depth, 1).expect("settings in the domain");
        let rows = case.settings.depth + dice.below(3) as usize;
        // A room may end in a part of a record.
        let mut part = |width: usize| dice.below(width as u64) as usize;
        let width = row_words(case.table.slots);
        Self {
            settings: setting_words(&case.settings),
            lists: [list(0), list(1), list(2), list(3)],
            bars: case.bars.iter().map(bar_words).collect(),
            next: 0,
            fresh: run.state.to_vec(),
            state: run.state.to_vec(),
            rows: vec![0; rows * width + part(width)],
            equity: vec![0; POINTS * POINT_WORDS + part(POINT_WORDS)],
            trades: vec![0; TRADES * TRADE_WORDS + part(TRADE_WORDS)],
            table,
        }
    }

    /// Small cases: few nodes, few slots, a window of few rows.
    pub fn some(seed: u64, count: usize) -> Vec<Self> {
        let dice = &mut Dice::new(seed);
        let small = |case: &Case| {
            case.settings.depth <= 8 && case.table.slots <= 4 && case.table.bytes().len() <= 400 && case.bars.len() > 8
        };
        let cases = (0..).map(|number| cases::some_case(seed, number).0);
        cases
            .filter(small)
            .take(count)
            .map(|case| Self::of(&case, dice))
            .collect()
    }

    pub fn bar(&self) -> &[u64] {
        &self.bars[self.next]
    }

    /// So many bars from the next one on, one after another.
    pub fn day(&self, count: usize) -> Vec<u64> {
        let bars = self.bars.iter().cycle().skip(self.next);
        bars.take(count).flatten().copied().collect()
    }

    /// Goes on with what a step left behind; begins anew when a room is full.
    pub fn go_on(&mut self, state: &[u64], rows: &[u64], equity: &[u64], trades: &[u64]) {
        self.state.copy_from_slice(&state[..STATE_WORDS]);
        self.rows.copy_from_slice(rows);
        self.equity.copy_from_slice(equity);
        self.trades.copy_from_slice(trades);
        self.next = (self.next + 1) % self.bars.len();
    }

    pub fn begin_anew(&mut self) {
        self.state.copy_from_slice(&self.fresh);
    }
}
