//! Many bars in one call: it must answer and leave what a call of step for each bar answers and leaves.

use yshturpa::calls;

use super::room::Room;
use super::{Guard, Outcome};
use crate::model::refusals;
use crate::records::bar_words;

/// The bars of a call at most: a little more than the rooms have places for.
const MOST_BARS: u64 = 15;

/// What a call for each bar comes to.
struct Single {
    answer: u64,
    done: u64,
    state: Vec<u64>,
    rows: Vec<u64>,
    equity: Vec<u64>,
    trades: Vec<u64>,
}

impl Guard {
    pub fn steps(&mut self, base: usize) -> Outcome {
        self.lend_run(base);
        let count = self.dice.below(MOST_BARS + 1) as usize;
        self.lent.bar.fill(&self.bases[base].day(count));
        for (room, list) in self.lent.lists.iter_mut().zip(&self.bases[base].lists) {
            room.fill(list);
        }
        for _ in 0..self.damages() {
            self.damage_step();
        }
        self.lent.lay();
        let single = self.bar_after_bar();
        let [state, rows, equity, trades, done] = {
            let lent = &mut self.lent;
            let [entry, exit, short_entry, short_exit] = &lent.lists;
            let answer = calls::steps(
                lent.settings.lent(),
                lent.state.lent_mut(),
                lent.bar.lent(),
                lent.rows.lent_mut(),
                lent.equity.lent_mut(),
                lent.trades.lent_mut(),
                [entry.lent(), exit.lent(), short_entry.lent(), short_exit.lent()],
                &mut lent.out.lent_mut()[0],
            );
            if answer != single.answer {
                return Err(format!("steps: answer {answer:x}, one by one {:x}", single.answer));
            }
            [
                lent.state.lent() == single.state,
                lent.rows.lent() == single.rows,
                lent.equity.lent() == single.equity,
                lent.trades.lent() == single.trades,
                lent.out.lent()[0] == single.done,
            ]
        };
        if !(state && rows && equity && trades && done) {
            return Err(format!(
                "steps: as one by one: state {state}, rows {rows}, equity {equity}, trades {trades}, count {done}"
            ));
        }
        let untouched = [&self.lent.metrics, &self.lent.tests]
            .iter()
            .all(|room| room.is_unchanged());
        if !(self.lent.guards_hold()
            && self.lent.data_unchanged()
            && untouched
            && self.lent.out.is_unchanged_outside(0, 1))
        {
            return Err("steps: a guard, or what was only handed over, was touched".into());
        }
        self.answers[(single.answer >> 32) as usize] += 1;
        Ok(())
    }

    /// A call of step for each bar, on copies. A list that is not whole bars is one call that is handed the list; no bars are no call, and
    /// of the rooms only those of the settings and the state are asked for.
    fn bar_after_bar(&self) -> Single {
        let lent = &self.lent;
        let copy = |room: &Room<u64>| room.content.clone();
        let mut single = Single {
            answer: 0,
            done: 0,
            state: copy(&lent.state),
            rows: copy(&lent.rows),
            equity: copy(&lent.equity),
            trades: copy(&lent.trades),
        };
        let settings = &lent.settings.content;
        let bars = &lent.bar.content;
        if bars.is_empty() {
            single.answer = refusals::fresh(settings, &single.state).err().unwrap_or(0);
            return single;
        }
        let slots = settings.first().copied().unwrap_or(0) as usize;
        let width = match slots <= bars.len() && bars.len().is_multiple_of(bar_words(slots)) {
            true => bar_words(slots),
            false => bars.len(),
        };
        let [entry, exit, short_entry, short_exit] = &lent.lists;
        for bar in bars.chunks(width) {
            single.answer = calls::step(
                settings,
                &mut single.state,
                bar,
                &mut single.rows,
                &mut single.equity,
                &mut single.trades,
                [&entry.content, &exit.content, &short_entry.content, &short_exit.content],
            );
            if single.answer != 0 {
                break;
            }
            single.done += 1;
        }
        single
    }
}
