//! Rules over rows: the plain evaluator, the steps over the window, and the text's `eval_condition` over the whole history.

use oracle::lists::dice::Dice;
use oracle::lists::runs::Bar;
use oracle::registry::slot_name;
use oracle::rules::{eval_condition, BarRow, RuleState};
use yshturpa::layout::{STEP_BYTES, WHY_LINES, WHY_WORDS};
use yshturpa::{calls, Refusal};

use super::{Mismatch, Tally};
use crate::case::{row_words, Case};
use crate::ours::Ours;
use crate::records::Position;

const RULE: &str = "eval_condition over the whole history";

/// All rows so far, as words and as the text has them.
pub struct Rules<'a> {
    case: &'a Case,
    table: Vec<u8>,
    words: Vec<u64>,
    history: Vec<BarRow>,
    dice: Dice,
}

/// What the text's rules read of a position, by document 01: an entry bar does not count while flat.
fn rule_state(at: Position) -> RuleState {
    let in_position = f64::from_bits(at.qty).abs() > f64::EPSILON;
    let counts = in_position && at.entered != 0;
    RuleState {
        in_position,
        bars_since_entry: counts.then(|| (at.bars_seen - 1 - at.entry_bar) as u32),
    }
}

impl<'a> Rules<'a> {
    pub fn new(case: &'a Case) -> Self {
        Self {
            case,
            table: case.table.bytes(),
            words: Vec::new(),
            history: Vec::new(),
            dice: Dice::new(case.bars.len() as u64),
        }
    }

    pub fn push(&mut self, bar: &Bar) {
        self.words.extend(row_words(bar));
        let slots = bar.slots.iter().enumerate();
        let values = slots.filter_map(|(k, slot)| slot.map(|x| (slot_name(k).as_str().into(), x)));
        self.history.push(BarRow {
            candle: bar.candle,
            values: values.collect(),
        });
    }

    /// Asks every tree at the position of the run, and at one that chance makes up.
    pub fn ask(&mut self, i: usize, run: &Ours, tally: &mut Tally) -> Result<(), Mismatch> {
        let made_up = self.some_position();
        for at in [run.position(), made_up] {
            for tree in 0..4 {
                self.ask_tree(i, tree, at, run, tally)?;
            }
        }
        Ok(())
    }

    fn some_position(&mut self) -> Position {
        let dice = &mut self.dice;
        let bars_seen = dice.pick(&[1, 2, 5, 40, 4_294_967_295]);
        let small = f64::EPSILON;
        let qty = dice.pick(&[0.0, 1.0, -2.5, small, -small, small.next_up(), f64::NAN, f64::INFINITY]);
        let entry_bar = dice.below(bars_seen.min(6));
        Position {
            qty: qty.to_bits(),
            entered: dice.pick(&[0, 1, u64::MAX]),
            entry_bar: bars_seen - 1 - entry_bar,
            bars_seen,
        }
    }

    /// The answer in the first line of the chain over all rows; none where there is no line, as of an absent tree.
    fn why(&self, tree: usize, at: Position) -> Result<Option<u64>, Refusal> {
        let mut lines = [u64::MAX; WHY_LINES * WHY_WORDS];
        let mut count = u64::MAX;
        Refusal::of(calls::why(
            &self.table,
            tree as u64,
            &self.words,
            at.words(),
            &mut lines,
            &mut count,
        ))?;
        Ok((count > 0).then_some(lines[1]))
    }

    fn ask_tree(&self, i: usize, tree: usize, at: Position, run: &Ours, tally: &mut Tally) -> Result<(), Mismatch> {
        let newest = self.history.len() - 1;
        let holds = |c| eval_condition(c, &self.history, newest, rule_state(at));
        let theirs = u64::from(self.case.table.trees[tree].as_ref().is_some_and(holds));
        let list = &run.lists[tree];
        let (slots, depth) = (run.settings[0], run.settings[1]);
        let wrong = |what, ours| Mismatch::one(Some(i), RULE, what, ours, theirs);
        let refused = |refusal| Mismatch::refused(Some(i), RULE, refusal);
        let mut answer = u64::MAX;
        Refusal::of(calls::rule(
            &self.table,
            tree as u64,
            &self.words,
            at.words(),
            &mut answer,
        ))
        .map_err(refused)?;
        if answer != theirs {
            return Err(wrong("rule over all rows", answer));
        }
        let said = self.why(tree, at).map_err(refused)?;
        if said != self.case.table.trees[tree].as_ref().map(|_| theirs) {
            return Err(wrong("the first line of why", said.unwrap_or(u64::MAX)));
        }
        let run_over = |rows: &[u64]| {
            let (mut answer, mut visits) = (u64::MAX, u64::MAX);
            let called = calls::run(list, rows, slots, depth, at.words(), &mut answer, &mut visits);
            Refusal::of(called).map(|()| (answer, visits)).map_err(refused)
        };
        let window = run_over(run.rows_held())?;
        if window.0 != theirs {
            return Err(wrong("steps over the window", window.0));
        }
        if run_over(&self.words)? != window {
            return Err(wrong("steps over all rows", window.0));
        }
        if window.1 > (list.len() / STEP_BYTES) as u64 {
            return Err(wrong("visits", window.1));
        }
        tally.rules += 1;
        tally.yes += theirs;
        Ok(())
    }
}
