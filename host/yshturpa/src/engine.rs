//! One run: the engine's state and every room it is lent.

use crate::layout::{
    setting, state, METRIC_WORDS, MOST_DEPTH, POINT_WORDS, ROW_FIXED, SETTING_WORDS, STATE_WORDS, TRADE_WORDS,
};
use crate::{calls, depth, slots_of, translate};
use crate::{Bar, Error, Metrics, Point, Refusal, Rows, Saved, Settings, State, Trade, Tree};

/// A run of one table's rules. It owns its rooms, so a step allocates nothing.
#[derive(Clone, Debug)]
pub struct Engine {
    pub(crate) slots: usize,
    pub(crate) settings: [u64; SETTING_WORDS],
    pub(crate) state: [u64; STATE_WORDS],
    bar: Vec<u64>,
    pub(crate) rows: Vec<u64>,
    pub(crate) equity: Vec<u64>,
    pub(crate) trades: Vec<u64>,
    pub(crate) steps: [Vec<u8>; 4],
}

impl Engine {
    /// A run before its first bar, with places for so many bars and trades (a step needs a free place for a trade, even where
    /// nothing is open). The window is `settings.depth` rows: at least what [`crate::depth`] says, or it is an error; so is a
    /// number of slots that is not the table's.
    pub fn new(table: &[u8], settings: &Settings, bars: usize, trades: usize) -> Result<Engine, Error> {
        fitting(table, settings)?;
        let mut engine = Engine {
            slots: settings.slots,
            settings: settings.words(),
            state: [0; STATE_WORDS],
            bar: Vec::new(),
            rows: vec![0; (ROW_FIXED + settings.slots) * settings.depth],
            equity: vec![0; POINT_WORDS * bars],
            trades: vec![0; TRADE_WORDS * trades],
            steps: [
                translate(table, Tree::Entry)?,
                translate(table, Tree::Exit)?,
                translate(table, Tree::ShortEntry)?,
                translate(table, Tree::ShortExit)?,
            ],
        };
        Refusal::of(calls::fresh(&engine.settings, &mut engine.state))?;
        Ok(engine)
    }

    /// A run that goes on from a saved state and its rows, with empty rooms for equity and trades, counted from 0.
    pub fn resumed(
        table: &[u8],
        settings: &Settings,
        bars: usize,
        trades: usize,
        saved: &Saved,
    ) -> Result<Engine, Error> {
        let mut engine = Engine::new(table, settings, bars, trades)?;
        let saved = Saved::of_words(settings.slots, &saved.words())?;
        if saved.rows().len() > engine.rows.len() {
            return Err(Error::Saved { words: saved.words().len() });
        }
        engine.rows[..saved.rows().len()].copy_from_slice(saved.rows());
        engine.state = *saved.state().words();
        engine.state[state::EQUITY_POINTS] = 0;
        engine.state[state::TRADES] = 0;
        Ok(engine)
    }

    /// The state as it is now, and the last D rows.
    pub fn save(&self) -> Saved {
        let rows = self.rows().last(self.settings[setting::DEPTH] as usize);
        let mut state = self.state();
        state.words[state::ROWS_HELD] = rows.len() as u64;
        Saved::new(state, rows.words().to_vec())
    }

    /// One bar. A refused one has changed nothing: the run goes on with the next call.
    pub fn step(&mut self, bar: &Bar) -> Result<(), Refusal> {
        let Engine { slots, settings, state, bar: words, rows, equity, trades, steps } = self;
        bar.words(*slots, words);
        let [entry, exit, short_entry, short_exit] = steps;
        let lists = [&entry[..], exit, short_entry, short_exit];
        Refusal::of(calls::step(settings, state, words, rows, equity, trades, lists))
    }

    /// Many bars in one call: how many were done, and what stopped it. A refused bar has changed nothing, and those before it stay done.
    pub fn steps(&mut self, bars: &[Bar]) -> (usize, Result<(), Refusal>) {
        // A bar with a surplus slot is longer than the others: it is refused by a step of its own.
        let even = bars.iter().take_while(|bar| bar.slots.len() <= self.slots).count();
        let mut list = Vec::new();
        for bar in &bars[..even] {
            bar.words(self.slots, &mut self.bar);
            list.extend_from_slice(&self.bar);
        }
        let Engine { settings, state, rows, equity, trades, steps, .. } = self;
        let [entry, exit, short_entry, short_exit] = &*steps;
        let lists = [&entry[..], exit, short_entry, short_exit];
        let mut done = 0;
        let answer = calls::steps(settings, state, &list, rows, equity, trades, lists, &mut done);
        let answer = match (Refusal::of(answer), bars.get(even)) {
            (Ok(()), Some(bar)) => self.step(bar),
            (answer, _) => answer,
        };
        (done as usize, answer)
    }

    /// Closes an open position at the last close, if a bar was seen, and gives the metrics. The last equity point counts its fee.
    pub fn finish(&mut self) -> Result<Metrics, Refusal> {
        let mut metrics = [0; METRIC_WORDS];
        let Engine { settings, state, rows, equity, trades, .. } = self;
        Refusal::of(calls::finish(settings, state, rows, equity, trades, &mut metrics))?;
        Ok(Metrics::of(&metrics))
    }

    /// The same run by itself, to try a bar on: the last D rows, and rooms for equity and trades with nothing in them.
    pub fn apart(&self) -> Engine {
        let (width, depth) = (ROW_FIXED + self.slots, self.settings[setting::DEPTH] as usize);
        let held = self.state[state::ROWS_HELD] as usize;
        let kept = held.min(depth);
        let mut rows = self.rows[(held - kept) * width..held * width].to_vec();
        rows.resize((depth + 1) * width, 0);
        let mut state = self.state;
        state[state::ROWS_HELD] = kept as u64;
        state[state::EQUITY_POINTS] = 0;
        state[state::TRADES] = 0;
        let (equity, trades) = (vec![0; POINT_WORDS], vec![0; 2 * TRADE_WORDS]);
        let (slots, settings, steps) = (self.slots, self.settings, self.steps.clone());
        Engine { slots, settings, state, bar: Vec::new(), rows, equity, trades, steps }
    }

    /// Empties the rooms of equity and trades: what comes is counted from 0.
    pub fn forget_results(&mut self) {
        self.state[state::EQUITY_POINTS] = 0;
        self.state[state::TRADES] = 0;
    }

    /// The words of the points and of the trades so far that nothing changes any more: all but the last point, in which `finish` counts the
    /// fee of closing.
    pub fn settled(&self) -> (&[u64], &[u64]) {
        let (points, trades) = self.results();
        (&points[..points.len().saturating_sub(POINT_WORDS)], trades)
    }

    /// Forgets what is settled: the rooms have the last point, and no trade.
    pub fn forget_settled(&mut self) {
        let (points, last) = (self.results().0.len(), POINT_WORDS.min(self.results().0.len()));
        self.equity.copy_within(points - last..points, 0);
        self.state[state::EQUITY_POINTS] = (last / POINT_WORDS) as u64;
        self.state[state::TRADES] = 0;
    }

    /// The words of all points and of all trades that the rooms have.
    pub fn results(&self) -> (&[u64], &[u64]) {
        let [points, trades] = [state::EQUITY_POINTS, state::TRADES].map(|count| self.state[count] as usize);
        (&self.equity[..POINT_WORDS * points], &self.trades[..TRADE_WORDS * trades])
    }

    pub fn state(&self) -> State {
        State { words: self.state }
    }

    /// The rows held, the oldest first.
    pub fn rows(&self) -> Rows {
        let held = self.state().rows_held() as usize * (ROW_FIXED + self.slots);
        Rows::of_words(self.slots, self.rows[..held].to_vec()).expect("whole rows are held")
    }

    /// The equity at each close so far.
    pub fn equity(&self) -> impl Iterator<Item = Point> + '_ {
        self.equity.chunks_exact(POINT_WORDS).take(self.state[state::EQUITY_POINTS] as usize).map(Point::of)
    }

    /// The trades so far.
    pub fn trades(&self) -> impl Iterator<Item = Trade> + '_ {
        self.trades.chunks_exact(TRADE_WORDS).take(self.state[state::TRADES] as usize).map(Trade::of)
    }
}

/// K is the table's, and D is no less than the library says that table and settings need.
fn fitting(table: &[u8], settings: &Settings) -> Result<(), Error> {
    let slots = slots_of(table)?;
    if settings.slots != slots {
        return Err(Error::Slots { given: settings.slots, table: slots });
    }
    let needed = depth(table, settings.lookback())?.rows as usize;
    if settings.depth < needed || settings.depth > MOST_DEPTH {
        return Err(Error::Depth { given: settings.depth, needed, most: MOST_DEPTH });
    }
    Ok(())
}
