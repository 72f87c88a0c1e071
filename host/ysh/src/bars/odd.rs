//! What looks wrong in bars that can be read: how often, and where first. The engine takes such bars as they are.

use std::collections::BTreeMap;

use crate::columns::counted;

/// What is looked for in each bar, in the order in which it is told.
const SORTS: [(&str, &str); 5] = [
    ("time that is before the one above it", "times that are before the one above them"),
    ("time that repeats the one above it", "times that repeat the one above them"),
    ("high below the low", "highs below the low"),
    ("close outside high and low", "closes outside high and low"),
    ("volume below 0", "volumes below 0"),
];

/// The most different steps between times that are counted; a file with more has no usual one.
const STEPS: usize = 512;

/// How often something was seen, and the first line of it.
#[derive(Clone, Copy, Debug, Default, PartialEq, Eq)]
struct Seen {
    count: u64,
    line: u64,
}

impl Seen {
    fn add(&mut self, line: u64) {
        if self.count == 0 {
            self.line = line;
        }
        self.count += 1;
    }
}

/// What looked wrong so far.
#[derive(Clone, Debug, Default)]
pub struct Odd {
    before: Option<i64>,
    seen: [Seen; SORTS.len()],
    /// The steps forward between two times.
    steps: BTreeMap<u64, Seen>,
    too_many: bool,
}

impl Odd {
    pub fn look(&mut self, line: u64, time: i64, [_, high, low, close, volume]: [f64; 5]) {
        let step = self.before.replace(time).map(|before| time.wrapping_sub(before));
        let falls = step.is_some_and(|step| step < 0);
        let found = [falls, step == Some(0), high < low, high >= low && (close < low || close > high), volume < 0.0];
        for (seen, found) in self.seen.iter_mut().zip(found) {
            if found {
                seen.add(line);
            }
        }
        if let Some(step @ 1..) = step {
            self.stepped(step as u64, line);
        }
    }

    fn stepped(&mut self, step: u64, line: u64) {
        let room = self.steps.len() < STEPS;
        match self.steps.get_mut(&step) {
            Some(seen) => seen.add(line),
            None if room => drop(self.steps.insert(step, Seen { count: 1, line })),
            None => self.too_many = true,
        }
    }

    /// The steps that are longer than the usual one, which more than half of the steps are.
    fn gaps(&self) -> Option<(u64, Seen)> {
        let all: u64 = self.steps.values().map(|seen| seen.count).sum();
        let (usual, seen) = self.steps.iter().max_by_key(|(_, seen)| seen.count)?;
        if self.too_many || seen.count * 2 <= all {
            return None;
        }
        let longer = self.steps.range(usual + 1..).map(|(_, seen)| *seen);
        longer.reduce(|a, b| Seen { count: a.count + b.count, line: a.line.min(b.line) }).map(|gaps| (*usual, gaps))
    }

    /// A sentence for each sort, with the first line of it: the line alone, and what is said.
    pub fn told(&self) -> Vec<(u64, String)> {
        let sorts = SORTS.iter().zip(&self.seen).filter(|(_, seen)| seen.count > 0);
        let mut told: Vec<(u64, String)> =
            sorts.map(|((one, more), seen)| (seen.line, counted(seen.count, one, more))).collect();
        if let Some((usual, gaps)) = self.gaps() {
            let steps = counted(gaps.count, "gap", "gaps");
            told.push((gaps.line, format!("{steps} between times, which are mostly {usual} apart")));
        }
        told
    }
}

#[cfg(test)]
mod tests {
    use super::*;

    #[test]
    fn each_sort_is_counted_and_its_first_line_kept() {
        let mut odd = Odd::default();
        let fine = [1.0, 2.0, 0.5, 1.0, 3.0];
        let bars = [
            (0, fine),
            (60, fine),
            (60, fine),
            (120, fine),
            (180, [1.0, 0.5, 2.0, 1.0, 3.0]),
            (240, [1.0, 2.0, 0.5, 2.5, 3.0]),
            (600, fine),
            (660, [1.0, 2.0, 0.5, 0.25, -3.0]),
            (0, fine),
            (60, fine),
        ];
        bars.iter().enumerate().for_each(|(n, (time, prices))| odd.look(n as u64 + 2, *time, *prices));
        let told = odd.told();
        assert_eq!(
            told,
            [
                (10, "1 time that is before the one above it".to_owned()),
                (4, "1 time that repeats the one above it".to_owned()),
                (6, "1 high below the low".to_owned()),
                (7, "2 closes outside high and low".to_owned()),
                (9, "1 volume below 0".to_owned()),
                (8, "1 gap between times, which are mostly 60 apart".to_owned()),
            ]
        );
    }

    #[test]
    fn times_without_a_usual_step_have_no_gaps() {
        let mut odd = Odd::default();
        let mut time = 0;
        for n in 0..2000 {
            time += n % 1000 + 1;
            odd.look(1, time, [1.0; 5]);
        }
        assert_eq!(odd.told(), []);
    }
}
