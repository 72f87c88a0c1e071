//! The Rust original: a run bar by bar, by either reading.

use oracle::answers::tick_of;
use oracle::data::DerivativesTick;
use oracle::engine::reach::{history_depth, During, Run, Waits};
use oracle::lists::runs::Bar;
use oracle::portfolio::Trade;
use oracle::report::BacktestReport;
use oracle::words::Line;
use oracle::{by_reading, run_of, spec_of, Reading};
use yshturpa::layout::TRADE_WORDS;

use crate::case::Case;
use crate::view::View;

pub struct Theirs {
    run: Run,
    reading: Reading,
}

/// What a run ends with: the nine figures, the last equity point, how many trades, the newest of them, and the fees paid.
pub struct Ending {
    pub metrics: Vec<u64>,
    pub point: Vec<u64>,
    pub trades: u64,
    pub newest: Vec<u64>,
    pub fees_paid: u64,
}

pub fn tick(bar: &Bar) -> Option<DerivativesTick> {
    bar.funding.map(|(mark, rate)| tick_of(mark, rate))
}

/// The rows that the original keeps.
pub fn depth(case: &Case) -> usize {
    history_depth(&spec_of(&case.settings, &case.table, Reading::Rust))
}

/// The words of the newest trade, with those of request 6 (0 by the text as it stands).
fn newest(trades: &[Trade], noted: Option<&During>) -> Vec<u64> {
    let none = || vec![0; TRADE_WORDS];
    let During { funding, worst } = noted.copied().unwrap_or_default();
    let words = |trade| Line::new().trade(trade).floats(&[funding, worst]).words().to_vec();
    trades.last().map_or_else(none, words)
}

impl Theirs {
    pub fn new(case: &Case, reading: Reading) -> Self {
        let run = run_of(&case.settings, &case.table, reading).expect("a spec that the original accepts");
        Self { run, reading }
    }

    /// Whether the bar is to be refused with 16: an entry that is due would be of too many lots.
    pub fn is_turned_away(&self, bar: &Bar) -> bool {
        self.run
            .is_turned_away(&bar.candle)
            .expect("sizing that the original takes")
    }

    /// One bar; what the original refuses it with.
    pub fn step(&mut self, bar: &Bar) -> Result<(), String> {
        let stepped = self.run.step(&bar.candle, &bar.slots, tick(bar).as_ref());
        stepped.map_err(|refusal| format!("{refusal:?}"))
    }

    pub fn view(&self) -> View {
        let held = self.run.held();
        let (point, trades) = self.run.latest();
        let (during, noted) = self.run.noted();
        let (number, delay, waits) = held.order.unwrap_or((0, 0, Waits::NOTHING));
        let (time, equity) = point.map_or((0, 0.0), |point| (point.time, point.equity));
        let (last_time, last_close) = held.last.unwrap_or((0, 0.0));
        // Every bar marks one point.
        let bars_seen = held.bars_seen as u64;
        let line = Line::new()
            .word(bars_seen)
            .word(bars_seen)
            .word(trades.len() as u64)
            .time(time)
            .float(equity)
            .word(number)
            .word(delay.into())
            .word(waits.kind)
            .floats(&[waits.level, waits.limit])
            .entry_bar(held.entry_bar)
            .portfolio(held.portfolio)
            .float(held.extreme)
            .time(last_time)
            .float(last_close)
            .floats(&[during.funding, during.worst]);
        View::of(&[line.words(), &newest(trades, noted.last())])
    }

    pub fn finish(self) -> Ending {
        let reading = self.reading;
        let mut noted = self.run.noted().1.to_vec();
        let (report, during) = self.run.finish();
        let BacktestReport {
            metrics,
            equity,
            trades,
            fees_paid,
            ..
        } = report;
        if reading == Reading::Paper {
            noted.resize(trades.len(), during);
        }
        let metrics = Line::new().metrics(&by_reading(metrics, reading));
        let point = equity.last().map_or((0, 0.0), |point| (point.time, point.equity));
        Ending {
            metrics: metrics.words().to_vec(),
            point: Line::new().time(point.0).float(point.1).words().to_vec(),
            trades: trades.len() as u64,
            newest: newest(&trades, noted.last()),
            fees_paid: Line::new().float(fees_paid).words()[0],
        }
    }
}
