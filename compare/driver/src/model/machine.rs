//! What a list of steps answers over rows, and how many steps it visits.

use super::steps::{steps, Step};
use crate::records::{row_words, Position};

struct Machine<'a> {
    rows: &'a [u64],
    width: usize,
    at: Position,
    values: Vec<Option<f64>>,
    answer: bool,
}

/// The answer and the visits of a list over the last `depth` rows.
pub fn run(list: &[u8], rows: &[u64], (slots, depth): (u64, u64), at: Position) -> (u64, u64) {
    let width = row_words(slots as usize);
    let skipped = (rows.len() / width).saturating_sub(depth as usize);
    let mut machine = Machine {
        rows: &rows[skipped * width..],
        width,
        at,
        values: Vec::new(),
        answer: false,
    };
    let (mut visits, mut pass) = (0, 0);
    for step in steps(list) {
        if pass > 0 {
            pass -= 1;
            continue;
        }
        visits += step.weight();
        pass = machine.step(step);
    }
    (machine.answer.into(), visits)
}

impl Machine<'_> {
    /// Does a step; how many steps after it are passed over.
    fn step(&mut self, step: Step) -> u16 {
        match step.kind {
            1 => self.push_from(step.n, |_| Some(f64::from_bits(step.constant))),
            2 => self.push_from(step.n, |row| slot(row, step.selector)),
            3 => self.push_from(step.n, |row| Some(price(row, step.selector))),
            9..=12 => self.push_extreme(step),
            5..=8 => {
                let [x, y] = self.take();
                self.push(x.zip(y).map(|(x, y)| arithmetic(step.kind, x, y)));
            }
            16..=21 => {
                let [x, y] = self.take();
                self.answer = x.zip(y).is_some_and(|(x, y)| compared(step.kind, x, y));
            }
            22 | 23 => {
                let [x, y, x_before, y_before] = self.take();
                let there = x.zip(y).zip(x_before.zip(y_before));
                self.answer = there.is_some_and(|((x, y), (p, q))| match step.kind {
                    22 => p <= q && x > y,
                    _ => p >= q && x < y,
                });
            }
            24 => {
                let [x, low, high] = self.take();
                self.answer = x
                    .zip(low.zip(high))
                    .is_some_and(|(x, (low, high))| low <= x && x <= high);
            }
            27 | 28 => self.answer = step.kind == 27,
            29 => self.answer = !self.answer,
            30 => self.answer = self.in_position() == (step.selector == 1),
            31 => self.answer = self.since_entry(step),
            _ if self.answer == (step.kind == 33) => return step.skip,
            _ => (),
        }
        0
    }

    fn push(&mut self, value: Option<f64>) {
        self.values.push(value);
    }

    fn push_from(&mut self, back: u32, value: impl Fn(&[u64]) -> Option<f64>) {
        let count = self.rows.len() / self.width;
        let row = count.checked_sub(1 + back as usize);
        let found = row.and_then(|row| value(&self.rows[row * self.width..][..self.width]));
        self.push(found);
    }

    /// Over the row n back and the `skip` - 1 after it: it starts at the oldest, and a later one takes its place only if strictly
    /// greater, for Lowest less.
    fn push_extreme(&mut self, step: Step) {
        let rows: Vec<&[u64]> = self.rows.chunks_exact(self.width).collect();
        let oldest = rows.len().checked_sub(1 + step.n as usize);
        let value = |row: &[u64]| match step.kind {
            9 | 10 => Some(price(row, step.selector)),
            _ => slot(row, step.selector),
        };
        let higher = matches!(step.kind, 9 | 11);
        let better = |best: f64, later: f64| if higher { later > best } else { later < best };
        let pick = |best, later| if better(best, later) { later } else { best };
        let all = oldest.and_then(|oldest| {
            let mut values = rows[oldest..].iter().take(step.skip.into()).map(|row| value(row));
            let first = values.next().flatten();
            values.fold(first, |best, later| Some(pick(best?, later?)))
        });
        self.push(all);
    }

    /// The last values, in the order in which they were pushed; one that is not there is missing.
    fn take<const N: usize>(&mut self) -> [Option<f64>; N] {
        let mut taken = [None; N];
        for value in taken.iter_mut().rev() {
            *value = self.values.pop().flatten();
        }
        taken
    }

    fn in_position(&self) -> bool {
        f64::from_bits(self.at.qty).abs() > f64::EPSILON
    }

    fn since_entry(&self, step: Step) -> bool {
        if !self.in_position() || self.at.entered == 0 {
            return false;
        }
        let bars = self.at.bars_seen - 1 - self.at.entry_bar;
        let k = u64::from(step.n);
        match step.selector {
            0 => bars > k,
            1 => bars < k,
            2 => bars >= k,
            3 => bars <= k,
            _ => bars == k,
        }
    }
}

pub fn slot(row: &[u64], k: u8) -> Option<f64> {
    (row[6] >> k & 1 == 1).then(|| f64::from_bits(row[7 + usize::from(k)]))
}

pub fn price(row: &[u64], selector: u8) -> f64 {
    let [open, high, low, close, volume] = [1, 2, 3, 4, 5].map(|j| f64::from_bits(row[j]));
    match selector {
        0 => open,
        1 => high,
        2 => low,
        3 => close,
        4 => volume,
        5 => (high + low + close) / 3.0,
        _ => (open + high + low + close) / 4.0,
    }
}

pub fn arithmetic(kind: u8, x: f64, y: f64) -> f64 {
    match kind {
        5 => x + y,
        6 => x - y,
        7 => x * y,
        _ if y.abs() < f64::EPSILON => f64::NAN,
        _ => x / y,
    }
}

pub fn compared(kind: u8, x: f64, y: f64) -> bool {
    match kind {
        16 => x > y,
        17 => x < y,
        18 => x >= y,
        19 => x <= y,
        20 => (x - y).abs() < f64::EPSILON,
        _ => (x - y).abs() >= f64::EPSILON,
    }
}
