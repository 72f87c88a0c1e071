//! The calls on tables: check, depth, silent tests, translate.

use oracle::lists::dice::Dice;
use oracle::lists::trees::{close, compare, negated, never, prev};
use oracle::spec::Condition;
use oracle::table::Table;
use yshturpa::calls;
use yshturpa::layout::{STEP_BYTES, STEP_ROOM};

use super::{damage, Guard, Outcome};
use crate::model::{refusals, silent, table};

/// Two nodes change places.
fn swap_nodes(dice: &mut Dice, table: &mut [u8]) {
    let nodes = (table.len() / 16).saturating_sub(1) as u64;
    if nodes > 0 {
        let (a, b) = (dice.below(nodes) as usize, dice.below(nodes) as usize);
        (0..16).for_each(|i| table.swap(16 + 16 * a + i, 16 + 16 * b + i));
    }
}

/// A tree that nests about as far as it may, or too far, with its deepest node anywhere.
pub fn nested(dice: &mut Dice) -> Vec<u8> {
    let (levels, operands) = (dice.between(20, 34), dice.below(12));
    let operand = (0..operands).fold(close(), |inner, _| prev(inner, 1));
    let last = compare(16, operand, close());
    let tree = (operands + 2..levels).fold(last, |inner, _| match dice.below(2) {
        0 => negated(inner),
        _ => Condition::All(vec![never(), inner]),
    });
    let trees = match dice.below(2) {
        0 => [Some(tree), Some(never()), None, None],
        _ => [Some(never()), Some(never()), Some(tree), None],
    };
    Table { slots: 0, trees }.bytes()
}

impl Guard {
    /// A table, damaged; now and then only bytes of chance.
    fn lend_table(&mut self, base: usize) {
        self.lent.begin();
        let bytes = &self.bases[base].table;
        self.lent.table.fill(bytes);
        for _ in 0..self.damages() {
            let dice = &mut self.dice;
            let room = &mut self.lent.table;
            match dice.below(12) {
                0 | 1 => damage::length(dice, room),
                2 => room.content.iter_mut().for_each(|byte| *byte = dice.bits() as u8),
                3 => swap_nodes(dice, &mut room.content),
                4 => room.fill(&nested(dice)),
                _ => damage::content(dice, room),
            }
        }
    }

    pub fn check(&mut self, base: usize) -> Outcome {
        self.lend_table(base);
        self.lent.lay();
        let [nodes, rows] = out(&mut self.lent.out);
        let answer = calls::check(self.lent.table.lent(), nodes, rows);
        let expected = table::checked(&self.lent.table.content);
        match self.judge("check", answer, expected.map(|_| ()))? {
            true if Ok((self.lent.out.lent()[0], self.lent.out.lent()[1])) != expected => {
                Err("check: other counts".into())
            }
            _ => Ok(()),
        }
    }

    pub fn depth(&mut self, base: usize) -> Outcome {
        self.lend_table(base);
        self.lent.lay();
        let lookback = self.dice.pick(&[0, 0, 1, 14, 4_094, 4_095, 4_096, u64::MAX]);
        let [rows, bytes] = out(&mut self.lent.out);
        let answer = calls::depth(self.lent.table.lent(), lookback, rows, bytes);
        let content = &self.lent.table.content;
        let needed = table::checked(content).map(|(_, rows)| rows.max(lookback.saturating_add(1)));
        let expected = refusals::depth(content, lookback);
        if self.judge("depth", answer, expected)? {
            let width = 7 + table::slots(&self.lent.table.content);
            let out = self.lent.out.lent();
            if needed != Ok(out[0]) || out[1] != out[0] * width * 8 {
                return Err("depth: another depth".into());
            }
        }
        Ok(())
    }

    pub fn silent(&mut self, base: usize) -> Outcome {
        self.lend_table(base);
        // Around the table's own reaches as often as far from them.
        let near = table::checked(&self.lent.table.content).map_or(1, |(_, rows)| rows);
        let rows = match self.dice.below(3) {
            0 => self.dice.pick(&[0, 1, 2, 4_095, 4_096, 4_097, u64::MAX]),
            1 => self.dice.below(near + 1),
            _ => near.saturating_sub(self.dice.below(3)),
        };
        let places = self.dice.pick(&[0, 1, 2, 5, 20, 256]);
        self.lent.tests.content.resize(places, 0x5a5a);
        self.lent.lay();
        let [count, _] = out(&mut self.lent.out);
        let answer = calls::silent(self.lent.table.lent(), rows, self.lent.tests.lent_mut(), count);
        let expected = refusals::silent(&self.lent.table.content, rows, places);
        if self.judge("silent", answer, expected)? {
            let tests = silent::silent(&self.lent.table.content, rows);
            let listed = &self.lent.tests;
            let right = self.lent.out.lent()[0] == tests.len() as u64 && listed.lent()[..tests.len()] == tests;
            if !right || !listed.is_unchanged_outside(0, tests.len()) {
                return Err(format!("silent: over {rows} rows, expected {tests:?}"));
            }
        }
        Ok(())
    }

    pub fn translate(&mut self, base: usize) -> Outcome {
        self.lend_table(base);
        let tree = self.dice.pick(&[0, 0, 1, 1, 2, 3, 4, u64::MAX]);
        let bytes = &self.bases[base].table;
        let room = STEP_ROOM * table::nodes_of_tree(bytes, tree) as usize;
        self.lent.steps.content.resize(room, 0x5a);
        if self.dice.percent(40) {
            damage::length(&mut self.dice, &mut self.lent.steps);
        }
        self.lent.lay();
        let [used, _] = out(&mut self.lent.out);
        let answer = calls::translate(self.lent.table.lent(), tree, self.lent.steps.lent_mut(), used);
        let expected = refusals::translate(&self.lent.table.content, tree, self.lent.steps.content.len());
        if self.judge("translate", answer, expected)? {
            let used = self.lent.out.lent()[0] as usize;
            let nodes = table::nodes_of_tree(&self.lent.table.content, tree) as usize;
            let fits = used <= STEP_ROOM * nodes && used.is_multiple_of(STEP_BYTES);
            if !fits || !self.lent.steps.is_unchanged_outside(0, used) {
                return Err(format!("translate: {used} bytes used, or more was written"));
            }
        }
        Ok(())
    }
}

/// The two words behind pointers.
pub fn out(room: &mut super::room::Room<u64>) -> [&mut u64; 2] {
    let (first, second) = room.lent_mut().split_at_mut(1);
    [&mut first[0], &mut second[0]]
}
