//! The calls on rows and lists of their own: rule, run, metrics.

use yshturpa::calls;
use yshturpa::layout::{state, METRIC_WORDS};

use super::tables::out;
use super::{damage, Guard, Outcome};
use crate::model::{machine, refusals};
use crate::records::{row_words, Position};

impl Guard {
    fn some_position(&mut self) -> Position {
        let dice = &mut self.dice;
        let bars_seen = dice.pick(&[0, 1, 5, 9, 4_294_967_295, 4_294_967_296, u64::MAX]);
        Position {
            qty: damage::word(dice),
            entered: dice.pick(&[0, 0, 1, u64::MAX]),
            entry_bar: dice.pick(&[0, 4, bars_seen.wrapping_sub(1), bars_seen, u64::MAX]),
            bars_seen,
        }
    }

    pub fn rule(&mut self, base: usize) -> Outcome {
        self.lend_run(base);
        self.lent.table.fill(&self.bases[base].table);
        if self.dice.percent(10) {
            damage::content(&mut self.dice, &mut self.lent.table);
        }
        self.whole_rows();
        let (tree, at) = (self.dice.pick(&[0, 1, 2, 3, 4, u64::MAX]), self.some_position());
        self.lent.lay();
        let [said, _] = out(&mut self.lent.out);
        let answer = calls::rule(self.lent.table.lent(), tree, self.lent.rows.lent(), at.words(), said);
        let expected = refusals::rule(&self.lent.table.content, &self.lent.rows.content, at);
        if self.judge("rule", answer, expected)? && self.lent.out.lent()[0] > 1 {
            return Err("rule: neither yes nor no".into());
        }
        Ok(())
    }

    /// Rows that are whole records, most of the time, with words of chance in them.
    fn whole_rows(&mut self) {
        let (dice, lent) = (&mut self.dice, &mut self.lent);
        let width = row_words(lent.settings.content[0] as usize);
        let rows = lent.rows.content.len() / width;
        lent.rows.content.truncate(dice.below(rows as u64 + 1) as usize * width);
        for _ in 0..dice.below(4) {
            damage::content(dice, &mut lent.rows);
        }
        if dice.percent(5) {
            damage::length(dice, &mut lent.rows);
        }
    }

    /// Runs a list, translated or of chance, and holds its answer and visits against the model.
    pub fn run(&mut self, base: usize) -> Outcome {
        self.lend_run(base);
        let tree = self.dice.below(4) as usize;
        self.lent.lists[0].fill(&self.bases[base].lists[tree]);
        for _ in 0..self.damages() {
            match self.dice.below(6) {
                0 => damage::length(&mut self.dice, &mut self.lent.lists[0]),
                1..=3 => self.steps_of_chance(),
                _ => damage::content(&mut self.dice, &mut self.lent.lists[0]),
            }
        }
        self.whole_rows();
        let settings = &self.bases[base].settings;
        let (mut slots, mut depth) = (settings[0], settings[1]);
        if self.dice.percent(5) {
            slots = damage::word(&mut self.dice);
        }
        if self.dice.percent(10) {
            depth = damage::word(&mut self.dice);
        }
        let at = self.some_position();
        self.lent.lay();
        let [said, visits] = out(&mut self.lent.out);
        let (list, rows) = (self.lent.lists[0].lent(), self.lent.rows.lent());
        let answer = calls::run(list, rows, slots, depth, at.words(), said, visits);
        let (list, rows) = (&self.lent.lists[0].content, &self.lent.rows.content);
        let expected = refusals::run(list, rows, (slots, depth), at);
        let ran = expected.is_ok().then(|| machine::run(list, rows, (slots, depth), at));
        if self.judge("run", answer, expected)? {
            let out = self.lent.out.lent();
            if ran != Some((out[0], out[1])) {
                return Err(format!(
                    "run: {} with {} visits, expected {ran:?}, {at:?}",
                    out[0], out[1]
                ));
            }
        }
        Ok(())
    }

    /// A list made of steps by chance; most of them are well formed.
    fn steps_of_chance(&mut self) {
        let (dice, settings) = (&mut self.dice, &self.lent.settings.content);
        let (slots, depth) = (settings[0].max(1), settings[1]);
        let list = &mut self.lent.lists[0].content;
        list.clear();
        let count = dice.below(24);
        for i in 0..count {
            let kind = dice.pick(&[
                1, 2, 3, 3, 3, 5, 6, 7, 8, 16, 17, 18, 19, 20, 21, 22, 23, 24, 27, 28, 29, 30, 31, 32, 33,
            ]);
            let selector = match kind {
                2 => dice.below(slots) as u8,
                3 => dice.below(9) as u8,
                30 | 31 => dice.below(6) as u8,
                _ => 0,
            };
            let skip = if matches!(kind, 32 | 33) {
                dice.below(count - i) as u16
            } else {
                0
            };
            let n = match kind {
                1..=3 => dice.below(depth) as u32,
                31 => dice.below(6) as u32,
                _ => 0,
            };
            let constant = if kind == 1 { damage::word(dice) } else { 0 };
            list.extend([kind, selector]);
            list.extend(skip.to_le_bytes());
            list.extend(n.to_le_bytes());
            list.extend(constant.to_le_bytes());
        }
    }

    pub fn metrics(&mut self, base: usize) -> Outcome {
        self.lend_run(base);
        let lent = &mut self.lent;
        lent.equity
            .content
            .truncate(2 * self.bases[base].state[state::EQUITY_POINTS] as usize);
        lent.trades
            .content
            .truncate(8 * self.bases[base].state[state::TRADES] as usize);
        lent.metrics.content.resize(METRIC_WORDS, 1);
        for _ in 0..self.damages() {
            let (dice, lent) = (&mut self.dice, &mut self.lent);
            match dice.below(5) {
                0 => damage::length(dice, &mut lent.metrics),
                1 => damage::length(dice, &mut lent.equity),
                2 => damage::length(dice, &mut lent.trades),
                3 => damage::content(dice, &mut lent.equity),
                _ => damage::content(dice, &mut lent.trades),
            }
        }
        self.lent.lay();
        let initial = self.bases[base].settings[2];
        let lent = &mut self.lent;
        let answer = calls::metrics(initial, lent.equity.lent(), lent.trades.lent(), lent.metrics.lent_mut());
        let room = lent.metrics.content.len();
        let expected = refusals::metrics(&lent.equity.content, &lent.trades.content, room);
        let done = self.judge("metrics", answer, expected)?;
        let lent = &self.lent;
        let in_place = lent.equity.is_unchanged() && lent.trades.is_unchanged();
        match !done || in_place && lent.metrics.is_unchanged_outside(0, METRIC_WORDS) {
            true => Ok(()),
            false => Err("metrics: something was written out of its place".into()),
        }
    }
}
