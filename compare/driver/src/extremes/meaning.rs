//! What such a tree means at a bar, written from document 01 and request 8.

use super::trees::{Condition, Operand};
use crate::model::machine::{arithmetic, compared, price, slot};

/// Rows one after the other, oldest first.
pub struct Rows<'a> {
    pub words: &'a [u64],
    pub width: usize,
}

impl Rows<'_> {
    fn row(&self, i: usize) -> Option<&[u64]> {
        self.words.chunks_exact(self.width).nth(i)
    }

    /// "The newest bar is the last row's; with no rows it is bar 0, whose row does not exist."
    pub fn newest(&self) -> usize {
        (self.words.len() / self.width).saturating_sub(1)
    }

    /// An operand at bar i: nothing where it is missing.
    fn value(&self, a: &Operand, i: usize) -> Option<f64> {
        let row = self.row(i)?;
        match a {
            Operand::Number(x) => Some(*x),
            Operand::Slot(k) => slot(row, *k),
            Operand::Price(selector) => Some(price(row, *selector)),
            Operand::Prev(a, n) => self.value(a, i.checked_sub(*n as usize)?),
            Operand::Arith(kind, a, b) => {
                let two = self.value(a, i).zip(self.value(b, i));
                two.map(|(x, y)| arithmetic(*kind, x, y))
            }
            Operand::Extreme(kind, a, n) => self.extreme(*kind, a, *n, i),
        }
    }

    /// "The answer is over the bar and the n − 1 before it, and missing if any is missing; it starts at the oldest, and a later one
    /// takes its place only if strictly greater (for Lowest, strictly less)."
    fn extreme(&self, kind: u8, a: &Operand, n: u32, i: usize) -> Option<f64> {
        let oldest = i.checked_sub(n as usize - 1)?;
        let mut best = self.value(a, oldest)?;
        for bar in oldest + 1..=i {
            let later = self.value(a, bar)?;
            let better = if kind == 9 { later > best } else { later < best };
            if better {
                best = later;
            }
        }
        Some(best)
    }

    pub fn holds(&self, c: &Condition, i: usize) -> bool {
        match c {
            Condition::Compare(kind @ (22 | 23), a, b) => i > 0 && self.crosses(*kind, a, b, i),
            Condition::Compare(kind, a, b) => {
                let two = self.value(a, i).zip(self.value(b, i));
                two.is_some_and(|(x, y)| compared(*kind, x, y))
            }
            Condition::Between(x, low, high) => {
                let ends = self.value(low, i).zip(self.value(high, i));
                let three = self.value(x, i).zip(ends);
                three.is_some_and(|(x, (low, high))| low <= x && x <= high)
            }
            Condition::Trend(kind, a, n) => {
                let then = i.checked_sub(*n as usize).and_then(|then| self.value(a, then));
                let two = self.value(a, i).zip(then);
                two.is_some_and(|(now, then)| if *kind == 25 { now > then } else { now < then })
            }
            Condition::All(below) => below.iter().all(|c| self.holds(c, i)),
            Condition::Any(below) => below.iter().any(|c| self.holds(c, i)),
            Condition::Not(below) => !self.holds(below, i),
        }
    }

    fn crosses(&self, kind: u8, a: &Operand, b: &Operand, i: usize) -> bool {
        let pair = |at| self.value(a, at).zip(self.value(b, at));
        let both = pair(i).zip(pair(i - 1));
        both.is_some_and(|((x, y), (p, q))| if kind == 22 { p <= q && x > y } else { p >= q && x < y })
    }
}
