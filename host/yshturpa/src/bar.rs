//! Bars as they are handed over, and rows as they are kept.

use crate::layout::{BAR_FIXED, MOST_SLOTS, ROW_FIXED};

/// What a funding payment is made by.
#[derive(Clone, Copy, Debug, PartialEq)]
pub struct Funding {
    pub mark: f64,
    pub rate: f64,
}

/// One bar, with an indicator value for each slot that has one.
#[derive(Clone, Debug, PartialEq, Default)]
pub struct Bar {
    pub time: i64,
    pub open: f64,
    pub high: f64,
    pub low: f64,
    pub close: f64,
    pub volume: f64,
    pub slots: Vec<Option<f64>>,
    pub funding: Option<Funding>,
}

impl Bar {
    /// Its words, for a table of so many slots: slots beyond those given are absent, and a surplus one is refused by the
    /// engine as any bar of the wrong length is (13).
    pub(crate) fn words(&self, slots: usize, words: &mut Vec<u64>) {
        words.clear();
        words.reserve(BAR_FIXED + slots);
        self.put_row(slots, words);
        words.extend(match self.funding {
            None => [0, 0, 0],
            Some(f) => [1, f.mark.to_bits(), f.rate.to_bits()],
        });
    }

    /// The words of its row: time, five prices, the mask of the slots that are there, and the slots.
    fn put_row(&self, slots: usize, words: &mut Vec<u64>) {
        let start = words.len();
        words.push(self.time as u64);
        words.extend([self.open, self.high, self.low, self.close, self.volume].map(f64::to_bits));
        let present = self.slots.iter().take(MOST_SLOTS).enumerate().filter(|(_, slot)| slot.is_some());
        words.push(present.fold(0, |mask, (k, _)| mask | 1 << k));
        words.extend(self.slots.iter().map(|slot| slot.map_or(0, f64::to_bits)));
        words.resize(words.len().max(start + ROW_FIXED + slots), 0);
    }
}

/// Rows of one K, the oldest first: what a rule is asked over.
#[derive(Clone, Debug, PartialEq, Eq)]
pub struct Rows {
    slots: usize,
    words: Vec<u64>,
}

impl Rows {
    /// No rows yet. A K above 64 is no table's, and is kept as 65.
    pub fn new(slots: usize) -> Rows {
        Rows { slots: slots.min(MOST_SLOTS + 1), words: Vec::new() }
    }

    /// Rows from their words, where these are whole rows of so many slots, 64 at most.
    pub fn of_words(slots: usize, words: Vec<u64>) -> Option<Rows> {
        (slots <= MOST_SLOTS && words.len() % (ROW_FIXED + slots) == 0).then_some(Rows { slots, words })
    }

    /// Adds a bar's row at the end. Slots beyond K are left out.
    pub fn push(&mut self, bar: &Bar) {
        let end = self.words.len() + ROW_FIXED + self.slots;
        if bar.slots.len() <= self.slots {
            bar.put_row(self.slots, &mut self.words);
        } else {
            let fewer = Bar { slots: bar.slots[..self.slots].to_vec(), ..bar.clone() };
            fewer.put_row(self.slots, &mut self.words);
        }
        debug_assert_eq!(self.words.len(), end);
    }

    pub fn slots(&self) -> usize {
        self.slots
    }

    pub fn len(&self) -> usize {
        self.words.len() / (ROW_FIXED + self.slots)
    }

    pub fn is_empty(&self) -> bool {
        self.words.is_empty()
    }

    /// The last rows, at most so many.
    pub fn last(&self, count: usize) -> Rows {
        let width = ROW_FIXED + self.slots;
        let from = self.len().saturating_sub(count) * width;
        Rows { slots: self.slots, words: self.words[from..].to_vec() }
    }

    /// One row, by its place, as the bar that it was; funding is not kept.
    pub fn bar(&self, place: usize) -> Bar {
        let width = ROW_FIXED + self.slots;
        let words = &self.words[place * width..(place + 1) * width];
        let x = |word: usize| f64::from_bits(words[word]);
        let slot = |k: usize| (k < MOST_SLOTS && words[6] >> k & 1 == 1).then(|| x(ROW_FIXED + k));
        Bar {
            time: words[0] as i64,
            open: x(1),
            high: x(2),
            low: x(3),
            close: x(4),
            volume: x(5),
            slots: (0..self.slots).map(slot).collect(),
            funding: None,
        }
    }

    pub fn words(&self) -> &[u64] {
        &self.words
    }

    /// The rows before a place, at most so many of the last of them.
    pub fn upto(&self, end: usize, count: usize) -> Rows {
        Rows { slots: self.slots, words: self.some(end.saturating_sub(count)..end).to_vec() }
    }

    /// The words of the rows at some places; places past the end have none.
    pub(crate) fn some(&self, places: std::ops::Range<usize>) -> &[u64] {
        let (width, end) = (ROW_FIXED + self.slots, places.end.min(self.len()));
        &self.words[places.start.min(end) * width..end * width]
    }
}

#[cfg(test)]
mod tests {
    use super::*;

    #[test]
    fn a_bar_has_ten_words_and_its_slots() {
        let bar = Bar { time: -1, close: 2.0, slots: vec![None, Some(3.0)], ..Bar::default() };
        let mut words = vec![7];
        bar.words(3, &mut words);
        assert_eq!(words.len(), BAR_FIXED + 3);
        assert_eq!((words[0], words[4], words[6]), (u64::MAX, 2f64.to_bits(), 0b10));
        assert_eq!(words[7..], [0, 3f64.to_bits(), 0, 0, 0, 0]);
    }

    #[test]
    fn rows_are_whole_and_the_last_ones_are_the_newest() {
        let mut rows = Rows::new(1);
        for time in 0..5 {
            rows.push(&Bar { time, slots: vec![Some(1.0), Some(9.0)], ..Bar::default() });
        }
        assert_eq!((rows.len(), rows.last(2).len(), rows.last(9).len()), (5, 2, 5));
        assert_eq!((rows.last(2).words()[0], rows.bar(4).time, &rows.bar(4).slots[..]), (3, 4, &[Some(1.0)][..]));
        assert!(Rows::of_words(1, vec![0; 9]).is_none());
    }
}
