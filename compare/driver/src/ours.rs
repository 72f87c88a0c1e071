//! The proved engine: a run through the C interface.

use yshturpa::layout::{state, METRIC_WORDS, POINT_WORDS, SETTING_WORDS, STATE_WORDS, STEP_ROOM, TRADE_WORDS};
use yshturpa::{calls, Refusal};

use crate::case::{setting_words, Case};
use crate::records::{self, Position};
use crate::view::View;

/// What the rooms are filled with before a run.
const UNTOUCHED: u64 = 0x5a5a_a5a5_5a5a_a5a5;

/// The steps of tree `tree`, translated into a room of exactly the size it needs.
pub fn translated(table: &[u8], tree: u64) -> Result<Vec<u8>, Refusal> {
    let at = 8 + 2 * tree as usize;
    let nodes = usize::from(u16::from_le_bytes([table[at], table[at + 1]]));
    let mut room = vec![0xa5; STEP_ROOM * nodes];
    let mut used = 0;
    Refusal::of(calls::translate(table, tree, &mut room, &mut used))?;
    room.truncate(used as usize);
    Ok(room)
}

/// A run: its settings and state, the rooms lent to it and the four lists.
pub struct Ours {
    pub settings: [u64; SETTING_WORDS],
    pub state: [u64; STATE_WORDS],
    pub rows: Vec<u64>,
    pub equity: Vec<u64>,
    pub trades: Vec<u64>,
    pub lists: [Vec<u8>; 4],
}

impl Ours {
    /// A run with room for `rows` rows, and for the equity and trades of all its bars.
    pub fn new(case: &Case, rows: usize) -> Result<Self, Refusal> {
        Self::with_room(case, rows, case.bars.len())
    }

    /// A run with room for `rows` rows and the equity and trades of `bars` bars.
    pub fn with_room(case: &Case, rows: usize, bars: usize) -> Result<Self, Refusal> {
        let table = case.table.bytes();
        let settings = setting_words(&case.settings);
        let list = |tree| translated(&table, tree);
        let mut run = Self {
            settings,
            state: [UNTOUCHED; STATE_WORDS],
            rows: vec![UNTOUCHED; rows * records::row_words(case.table.slots)],
            equity: vec![UNTOUCHED; bars * POINT_WORDS],
            trades: vec![UNTOUCHED; (bars + 1) * TRADE_WORDS],
            lists: [list(0)?, list(1)?, list(2)?, list(3)?],
        };
        Refusal::of(calls::fresh(&run.settings, &mut run.state))?;
        Ok(run)
    }

    pub fn step(&mut self, bar: &[u64]) -> Result<(), Refusal> {
        let [entry, exit, short_entry, short_exit] = &self.lists;
        Refusal::of(calls::step(
            &self.settings,
            &mut self.state,
            bar,
            &mut self.rows,
            &mut self.equity,
            &mut self.trades,
            [entry, exit, short_entry, short_exit],
        ))
    }

    /// Many bars in one call: how many were done, and what stopped it.
    pub fn steps(&mut self, bars: &[u64]) -> (usize, Result<(), Refusal>) {
        let [entry, exit, short_entry, short_exit] = &self.lists;
        let mut count = UNTOUCHED;
        let answer = calls::steps(
            &self.settings,
            &mut self.state,
            bars,
            &mut self.rows,
            &mut self.equity,
            &mut self.trades,
            [entry, exit, short_entry, short_exit],
            &mut count,
        );
        (count as usize, Refusal::of(answer))
    }

    pub fn finish(&mut self) -> Result<[u64; METRIC_WORDS], Refusal> {
        let mut metrics = [UNTOUCHED; METRIC_WORDS];
        Refusal::of(calls::finish(
            &self.settings,
            &mut self.state,
            &self.rows,
            &mut self.equity,
            &mut self.trades,
            &mut metrics,
        ))?;
        Ok(metrics)
    }

    /// The metrics of the points and trades held, by the call of its own.
    pub fn metrics(&self) -> Result<[u64; METRIC_WORDS], Refusal> {
        let mut metrics = [UNTOUCHED; METRIC_WORDS];
        let (points, trades) = (self.points_held(), self.trades_held());
        Refusal::of(calls::metrics(self.settings[2], points, trades, &mut metrics))?;
        Ok(metrics)
    }

    /// The same with the last point, where there is one, as given.
    pub fn metrics_with_last(&self, point: [u64; POINT_WORDS]) -> Result<[u64; METRIC_WORDS], Refusal> {
        let mut metrics = [UNTOUCHED; METRIC_WORDS];
        let mut points = self.points_held().to_vec();
        if let Some(last) = points.last_chunk_mut() {
            *last = point;
        }
        Refusal::of(calls::metrics(
            self.settings[2],
            &points,
            self.trades_held(),
            &mut metrics,
        ))?;
        Ok(metrics)
    }

    /// The last equity point; zeros where there is none.
    pub fn newest_point(&self) -> [u64; POINT_WORDS] {
        self.points_held().last_chunk().copied().unwrap_or_default()
    }

    fn count(&self, word: usize) -> usize {
        self.state[word] as usize
    }

    pub fn rows_held(&self) -> &[u64] {
        let width = records::row_words(self.settings[0] as usize);
        &self.rows[..self.count(state::ROWS_HELD) * width]
    }

    pub fn points_held(&self) -> &[u64] {
        &self.equity[..self.count(state::EQUITY_POINTS) * POINT_WORDS]
    }

    pub fn trades_held(&self) -> &[u64] {
        &self.trades[..self.count(state::TRADES) * TRADE_WORDS]
    }

    /// Whether what lies past the points, trades and rows held is as it was lent.
    pub fn rest_untouched(&self) -> bool {
        let rest = [
            &self.rows[self.rows_held().len()..],
            &self.equity[self.points_held().len()..],
            &self.trades[self.trades_held().len()..],
        ];
        rest.iter().all(|rest| rest.iter().all(|&word| word == UNTOUCHED))
    }

    pub fn position(&self) -> Position {
        Position {
            qty: self.state[state::QTY],
            entered: self.state[state::ENTERED],
            entry_bar: self.state[state::ENTRY_BAR],
            bars_seen: self.state[state::BARS_SEEN],
        }
    }

    /// What can be seen after a bar.
    pub fn view(&self) -> View {
        view_of(&self.state, &self.equity, &self.trades)
    }
}

/// What can be seen of a state and of the room of its points and trades.
pub fn view_of(s: &[u64], equity: &[u64], trades: &[u64]) -> View {
    let order = match s[state::ORDER] {
        number @ 1..=3 => [number, s[state::ORDER_DELAY]],
        _ => [0, 0],
    };
    let entry = match s[state::ENTERED] {
        0 => [0, 0],
        _ => [1, s[state::ENTRY_BAR]],
    };
    let points = &equity[..s[state::EQUITY_POINTS] as usize * POINT_WORDS];
    let trades = &trades[..s[state::TRADES] as usize * TRADE_WORDS];
    let point: [u64; POINT_WORDS] = points.last_chunk().copied().unwrap_or_default();
    let trade: [u64; TRADE_WORDS] = trades.last_chunk().copied().unwrap_or_default();
    let waits = &s[state::ORDER_KIND..=state::ORDER_LIMIT];
    let held = &s[state::CASH..state::ORDER_KIND];
    View::of(&[
        &[s[state::BARS_SEEN], s[state::EQUITY_POINTS], s[state::TRADES]],
        &point,
        &order,
        waits,
        &entry,
        held,
        &s[state::OPEN_FUNDING..],
        &trade,
    ])
}
