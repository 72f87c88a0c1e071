//! Many bars at once: a list of them, and a run over it.

use std::ops::Range;

use crate::layout::{setting, state, BAR_FIXED, MOST_SLOTS, POINT_WORDS, ROW_FIXED, TRADE_WORDS};
use crate::{calls, Bar, Engine, Funding, Refusal};

/// Bars of one K, in the words that they are handed over in, one after another.
#[derive(Clone, Debug, PartialEq, Eq)]
pub struct Bars {
    slots: usize,
    words: Vec<u64>,
}

impl Bars {
    /// No bars yet. A K above 64 is that of no engine: such bars are refused as any of the wrong length are (13), and are kept as bars of 65.
    pub fn new(slots: usize) -> Bars {
        Bars { slots: slots.min(MOST_SLOTS + 1), words: Vec::new() }
    }

    /// No bars, with room for so many, a million words at most being kept for them from the start.
    pub fn with_room(slots: usize, bars: usize) -> Bars {
        let mut list = Bars::new(slots);
        list.words.reserve(list.width().saturating_mul(bars).min(1 << 20));
        list
    }

    /// Adds a bar at the end. Slots that it lacks are absent, and slots beyond K are left out.
    pub fn push(&mut self, bar: &Bar) {
        let prices = [bar.open, bar.high, bar.low, bar.close, bar.volume];
        self.push_parts(bar.time, prices, bar.slots.iter().copied(), bar.funding);
    }

    /// Adds a bar by its parts: open, high, low, close and volume, then the slots in their order.
    pub fn push_parts(
        &mut self,
        time: i64,
        prices: [f64; 5],
        slots: impl Iterator<Item = Option<f64>>,
        funding: Option<Funding>,
    ) {
        self.words.push(time as u64);
        self.words.extend(prices.map(f64::to_bits));
        let mask_at = self.words.len();
        self.words.resize(mask_at + 1 + self.slots, 0);
        for (k, slot) in slots.take(self.slots.min(MOST_SLOTS)).enumerate() {
            if let Some(x) = slot {
                self.words[mask_at] |= 1 << k;
                self.words[mask_at + 1 + k] = x.to_bits();
            }
        }
        self.words.extend(match funding {
            None => [0, 0, 0],
            Some(f) => [1, f.mark.to_bits(), f.rate.to_bits()],
        });
    }

    pub fn len(&self) -> usize {
        self.words.len() / self.width()
    }

    pub fn is_empty(&self) -> bool {
        self.words.is_empty()
    }

    fn width(&self) -> usize {
        BAR_FIXED + self.slots
    }

    /// One bar, by its place in the list.
    pub fn bar(&self, place: usize) -> Bar {
        let words = &self.words[place * self.width()..(place + 1) * self.width()];
        let x = |word: usize| f64::from_bits(words[word]);
        let (mask, end) = (words[6], 7 + self.slots);
        Bar {
            time: words[0] as i64,
            open: x(1),
            high: x(2),
            low: x(3),
            close: x(4),
            volume: x(5),
            slots: (0..self.slots).map(|k| (k < MOST_SLOTS && mask >> k & 1 == 1).then(|| x(7 + k))).collect(),
            funding: (words[end] != 0).then(|| Funding { mark: x(end + 1), rate: x(end + 2) }),
        }
    }

    /// The words of the bars at some places, as they are handed over.
    pub fn words(&self, places: Range<usize>) -> &[u64] {
        &self.words[places.start * self.width()..places.end * self.width()]
    }

    pub fn time(&self, place: usize) -> i64 {
        self.words[place * self.width()] as i64
    }

    pub fn close(&self, place: usize) -> f64 {
        f64::from_bits(self.words[place * self.width() + 4])
    }
}

/// How many bars of a list were done, and why the next one was not.
#[derive(Clone, Copy, Debug, PartialEq, Eq)]
pub struct Done {
    pub bars: usize,
    pub refused: Option<Refusal>,
}

impl Engine {
    /// The bars at some places of a list, up to the first that is refused, which has changed nothing. Bars of another K are refused as
    /// any bar of the wrong length is (13). Places past the end have no bars: none are done for them.
    pub fn step_over(&mut self, bars: &Bars, places: Range<usize>) -> Done {
        let Engine { slots, settings, state, rows, equity, trades, steps, .. } = self;
        let [entry, exit, short_entry, short_exit] = steps;
        let lists = [&entry[..], exit, short_entry, short_exit];
        let end = places.end.min(bars.len());
        let asked = &bars.words[places.start.min(end) * bars.width()..end * bars.width()];
        let mut done = 0;
        let answer = match bars.slots != *slots && !asked.is_empty() {
            true => calls::step(settings, state, &asked[..bars.width()], rows, equity, trades, lists),
            false => calls::steps(settings, state, asked, rows, equity, trades, lists, &mut done),
        };
        Done { bars: done as usize, refused: Refusal::of(answer).err() }
    }

    /// Places for so many bars more, and for as many trades, the one that finish may close too. The rows are cut to the last D, which is
    /// all that any rule or volatility target reads, and have so many places more, so that none has to move on the way: a box that
    /// keeps more rows is proved to come to the same (request 13).
    pub fn make_room(&mut self, bars: usize) {
        let (width, depth) = (ROW_FIXED + self.slots, self.settings[setting::DEPTH] as usize);
        let held = self.state[state::ROWS_HELD] as usize;
        let kept = held.min(depth);
        self.rows.copy_within((held - kept) * width..held * width, 0);
        self.state[state::ROWS_HELD] = kept as u64;
        self.rows.resize(self.rows.len().max((depth + bars) * width), 0);
        let points = self.state[state::EQUITY_POINTS] as usize + bars;
        let trades = self.state[state::TRADES] as usize + bars + 1;
        self.equity.resize(self.equity.len().max(POINT_WORDS * points), 0);
        self.trades.resize(self.trades.len().max(TRADE_WORDS * trades), 0);
    }

    /// The same run with no rules: it decides nothing more, and what works already goes on.
    pub fn without_rules(mut self) -> Engine {
        self.steps = Default::default();
        self
    }
}

#[cfg(test)]
mod tests {
    use super::*;

    #[test]
    fn a_bar_in_a_list_is_the_bar() {
        let bar = Bar {
            time: -7,
            open: 1.0,
            high: 2.0,
            low: 0.5,
            close: 1.5,
            volume: 9.0,
            slots: vec![None, Some(-0.0)],
            funding: Some(Funding { mark: 1.25, rate: 0.01 }),
        };
        let mut bars = Bars::new(2);
        bars.push(&Bar::default());
        bars.push(&bar);
        let mut words = Vec::new();
        bar.words(2, &mut words);
        assert_eq!((bars.len(), bars.bar(1), &bars.words[12..]), (2, bar, &words[..]));
        assert_eq!((bars.time(1), bars.close(1)), (-7, 1.5));
    }
}
