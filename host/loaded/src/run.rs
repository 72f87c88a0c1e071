//! A run by a loaded library.

use std::ops::Range;

use yshturpa::layout::{
    setting, state, METRIC_WORDS, POINT_WORDS, ROW_FIXED, SETTING_WORDS, STATE_WORDS, STEP_ROOM, TRADE_WORDS,
};
use yshturpa::{Bars, Done, Refusal, Settings, Tree};

use crate::calls::{Library, Rooms};

pub struct Run<'l> {
    library: &'l Library,
    settings: [u64; SETTING_WORDS],
    state: [u64; STATE_WORDS],
    rows: Vec<u64>,
    equity: Vec<u64>,
    trades: Vec<u64>,
    steps: [Vec<u8>; 4],
}

impl<'l> Run<'l> {
    /// A run before its first bar.
    pub fn new(library: &'l Library, table: &[u8], settings: &Settings) -> Result<Run<'l>, Refusal> {
        let steps = |tree: Tree| {
            let mut room = vec![0; STEP_ROOM * table.len() / 16];
            let used = library.translate(table, tree as u64, &mut room)?;
            room.truncate(used as usize);
            Ok(room)
        };
        let steps = [steps(Tree::Entry)?, steps(Tree::Exit)?, steps(Tree::ShortEntry)?, steps(Tree::ShortExit)?];
        let words = settings.words();
        let mut state = [0; STATE_WORDS];
        library.fresh(&words, &mut state)?;
        let rows = vec![0; (ROW_FIXED + settings.slots) * settings.depth];
        Ok(Run { library, settings: words, state, rows, equity: Vec::new(), trades: Vec::new(), steps })
    }

    /// The bars at some places of a list, up to the first that is refused, which has changed nothing.
    pub fn step_over(&mut self, bars: &Bars, places: Range<usize>) -> Done {
        let points = self.state[state::EQUITY_POINTS] as usize + places.len();
        let trades = self.state[state::TRADES] as usize + places.len() + 1;
        self.equity.resize(self.equity.len().max(POINT_WORDS * points), 0);
        self.trades.resize(self.trades.len().max(TRADE_WORDS * trades), 0);
        let Run { library, settings, state, rows, equity, trades, steps } = self;
        let rooms = Rooms { state, rows, equity, trades };
        let (done, answer) = library.steps(settings, rooms, bars.words(places), steps);
        Done { bars: done as usize, refused: answer.err() }
    }

    /// Closes an open position at the last close, if a bar was seen.
    pub fn finish(&mut self) -> Result<(), Refusal> {
        let mut metrics = [0; METRIC_WORDS];
        self.trades.resize(self.trades.len().max(TRADE_WORDS), 0);
        let Run { library, settings, state, rows, equity, trades, .. } = self;
        library.finish(settings, Rooms { state, rows, equity, trades }, &mut metrics)
    }

    /// The words of the points and of the trades so far that nothing changes any more: all but the last point, in which `finish` counts the
    /// fee of closing.
    pub fn settled(&self) -> (&[u64], &[u64]) {
        let (points, trades) = self.results();
        (&points[..points.len().saturating_sub(POINT_WORDS)], trades)
    }

    /// Forgets what is settled: what is kept is the last point, and no trade.
    pub fn forget_settled(&mut self) {
        let (points, last) = (self.results().0.len(), POINT_WORDS.min(self.results().0.len()));
        self.equity.copy_within(points - last..points, 0);
        self.state[state::EQUITY_POINTS] = (last / POINT_WORDS) as u64;
        self.state[state::TRADES] = 0;
    }

    /// The words of all points and of all trades that are kept.
    pub fn results(&self) -> (&[u64], &[u64]) {
        let [points, trades] = [state::EQUITY_POINTS, state::TRADES].map(|count| self.state[count] as usize);
        (&self.equity[..POINT_WORDS * points], &self.trades[..TRADE_WORDS * trades])
    }

    /// K, which the bars have to have.
    pub fn slots(&self) -> usize {
        self.settings[setting::SLOTS] as usize
    }
}
