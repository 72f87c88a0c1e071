//! The calls of a run: fresh, step, finish.

use yshturpa::calls;
use yshturpa::layout::{state, METRIC_WORDS, POINT_WORDS, STATE_WORDS, TRADE_WORDS};

use super::{damage, Guard, Outcome};
use crate::model::refusals;
use crate::records::row_words;

impl Guard {
    /// A run as it stands, not yet damaged.
    pub fn lend_run(&mut self, base: usize) {
        self.lent.begin();
        let (lent, base) = (&mut self.lent, &self.bases[base]);
        lent.settings.fill(&base.settings);
        lent.state.fill(&base.state);
        lent.rows.fill(&base.rows);
        lent.equity.fill(&base.equity);
        lent.trades.fill(&base.trades);
    }

    /// One damage to what a step and a finish have in common.
    fn damage_run(&mut self) {
        let (dice, lent) = (&mut self.dice, &mut self.lent);
        match dice.below(12) {
            0..=2 => damage::content(dice, &mut lent.settings),
            3..=6 => damage::content(dice, &mut lent.state),
            7 => damage::content(dice, &mut lent.rows),
            8 => damage::length(dice, &mut lent.rows),
            9 => damage::length(dice, &mut lent.equity),
            10 => damage::length(dice, &mut lent.trades),
            _ if dice.percent(50) => damage::length(dice, &mut lent.settings),
            _ => damage::length(dice, &mut lent.state),
        }
    }

    pub fn fresh(&mut self, base: usize) -> Outcome {
        self.lend_run(base);
        for _ in 0..self.damages() {
            self.damage_run();
        }
        self.lent.lay();
        let answer = calls::fresh(self.lent.settings.lent(), self.lent.state.lent_mut());
        let expected = refusals::fresh(&self.lent.settings.content, &self.lent.state.content);
        if self.judge("fresh", answer, expected)? && !self.only_state_changed() {
            return Err("fresh: more than the state was written".into());
        }
        Ok(())
    }

    fn only_state_changed(&self) -> bool {
        let lent = &self.lent;
        let rooms = [&lent.rows, &lent.equity, &lent.trades];
        rooms.iter().all(|room| room.is_unchanged()) && lent.state.is_unchanged_outside(0, STATE_WORDS)
    }

    pub fn damage_step(&mut self) {
        let (dice, lent) = (&mut self.dice, &mut self.lent);
        let list = &mut lent.lists[dice.below(4) as usize];
        match dice.below(10) {
            0..=3 => self.damage_run(),
            4..=6 => damage::content(dice, &mut lent.bar),
            7 => damage::length(dice, &mut lent.bar),
            8 => damage::content(dice, list),
            _ => damage::length(dice, list),
        }
    }

    pub fn step(&mut self, base: usize) -> Outcome {
        self.lend_run(base);
        self.lent.bar.fill(self.bases[base].bar());
        for (room, list) in self.lent.lists.iter_mut().zip(&self.bases[base].lists) {
            room.fill(list);
        }
        let damages = self.damages();
        for _ in 0..damages {
            self.damage_step();
        }
        self.lent.lay();
        let lent = &mut self.lent;
        let [entry, exit, short_entry, short_exit] = &lent.lists;
        let answer = calls::step(
            lent.settings.lent(),
            lent.state.lent_mut(),
            lent.bar.lent(),
            lent.rows.lent_mut(),
            lent.equity.lent_mut(),
            lent.trades.lent_mut(),
            [entry.lent(), exit.lent(), short_entry.lent(), short_exit.lent()],
        );
        let [entry, exit, short_entry, short_exit] = &lent.lists;
        let lists = [
            &entry.content[..],
            &exit.content,
            &short_entry.content,
            &short_exit.content,
        ];
        let expected = refusals::step(&lent.contents(), &lent.bar.content, lists);
        if self.judge("step", answer, expected)? {
            self.stepped()?;
            if damages == 0 {
                let lent = &self.lent;
                let (rows, equity, trades) = (lent.rows.lent(), lent.equity.lent(), lent.trades.lent());
                self.bases[base].go_on(lent.state.lent(), rows, equity, trades);
            }
        } else if damages == 0 {
            self.bases[base].begin_anew();
        }
        Ok(())
    }

    /// A step that did its work wrote the row, one point, at most one trade and the state, each in its place.
    fn stepped(&self) -> Outcome {
        let lent = &self.lent;
        let (before, after) = (&lent.state.content, lent.state.lent());
        let (points, trades) = (before[state::EQUITY_POINTS] as usize, before[state::TRADES] as usize);
        let closed = after[state::TRADES].wrapping_sub(before[state::TRADES]) as usize;
        let counted = after[state::BARS_SEEN] == before[state::BARS_SEEN] + 1
            && after[state::EQUITY_POINTS] == before[state::EQUITY_POINTS] + 1
            && closed <= 1;
        let point = POINT_WORDS * points;
        let trade = TRADE_WORDS * trades;
        let in_place = lent.state.is_unchanged_outside(0, STATE_WORDS)
            && lent.equity.is_unchanged_outside(point, point + POINT_WORDS)
            && lent.trades.is_unchanged_outside(trade, trade + closed * TRADE_WORDS);
        match counted && in_place && self.row_added() {
            true => Ok(()),
            false => Err("step: something was written out of its place".into()),
        }
    }

    fn row_added(&self) -> bool {
        let lent = &self.lent;
        let slots = lent.settings.content[0] as usize;
        let width = row_words(slots);
        let mut row = lent.bar.content[..width].to_vec();
        let mask = row[6];
        let absent = (0..slots).filter(|k| mask >> k & 1 == 0);
        absent.for_each(|k| row[7 + k] = 0);
        let mut rows = lent.rows.content.clone();
        let places = rows.len() / width;
        let held = lent.state.content[state::ROWS_HELD] as usize;
        let at = if held < places {
            held
        } else {
            rows.copy_within(width..places * width, 0);
            places - 1
        };
        rows[at * width..][..width].copy_from_slice(&row);
        lent.rows.lent() == rows && lent.state.lent()[state::ROWS_HELD] as usize == at + 1
    }

    pub fn finish(&mut self, base: usize) -> Outcome {
        self.lend_run(base);
        self.lent.metrics.content.resize(METRIC_WORDS, 1);
        for _ in 0..self.damages() {
            match self.dice.below(8) {
                0 => damage::length(&mut self.dice, &mut self.lent.metrics),
                _ => self.damage_run(),
            }
        }
        self.lent.lay();
        let lent = &mut self.lent;
        let answer = calls::finish(
            lent.settings.lent(),
            lent.state.lent_mut(),
            lent.rows.lent(),
            lent.equity.lent_mut(),
            lent.trades.lent_mut(),
            lent.metrics.lent_mut(),
        );
        let expected = refusals::finish(&lent.contents(), &lent.metrics.content);
        if self.judge("finish", answer, expected)? {
            let lent = &self.lent;
            let trades = lent.state.content[state::TRADES];
            let closed = (lent.state.lent()[state::TRADES] - trades) as usize;
            let at = TRADE_WORDS * trades as usize;
            // Where a position was closed, the last point has another equity.
            let last = POINT_WORDS * lent.state.content[state::EQUITY_POINTS] as usize;
            let in_place = closed <= 1
                && lent.rows.is_unchanged()
                && lent.equity.is_unchanged_outside(last - closed.min(last), last)
                && lent.trades.is_unchanged_outside(at, at + closed * TRADE_WORDS)
                && lent.metrics.is_unchanged_outside(0, METRIC_WORDS)
                && lent.state.is_unchanged_outside(0, STATE_WORDS);
            if !in_place {
                return Err("finish: something was written out of its place".into());
            }
        }
        Ok(())
    }
}
