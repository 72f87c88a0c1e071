//! Counts over bars: of each part of a rule, how often it said what.

use super::asker::{is_missing, Answers};
use super::shape::Shape;

/// A bar as it is told: its number and its time.
#[derive(Clone, Copy, Debug, PartialEq, Eq)]
pub struct Stamp {
    pub bar: u64,
    pub time: i64,
}

/// The counts of one part.
#[derive(Clone, Debug, Default)]
pub struct Count {
    pub yes: u64,
    /// For want of a value or of bars; a test's alone, and no part of those that said no.
    pub missing: u64,
    pub no: u64,
    /// How often the chain ended here while the rule said no.
    pub decided: u64,
    /// How often turning it alone would have made the rule say yes.
    pub turning: u64,
    /// The most bars in a row, of those that were asked, at which it did not say yes.
    pub longest: u64,
    run: u64,
    last_bar: Option<u64>,
    /// The first and the last of them.
    pub first: Option<Stamp>,
    pub last: Option<Stamp>,
}

impl Count {
    fn add(&mut self, said: bool, at: Stamp) {
        if said {
            self.yes += 1;
            return;
        }
        self.no += 1;
        let goes_on = self.last_bar.is_some_and(|bar| bar + 1 == at.bar);
        self.run = if goes_on { self.run + 1 } else { 1 };
        self.longest = self.longest.max(self.run);
        self.last_bar = Some(at.bar);
        self.first.get_or_insert(at);
        self.last = Some(at);
    }
}

/// The counts of a rule's parts.
pub struct Tally {
    pub parts: Vec<Count>,
    answers: Vec<bool>,
    tests: Vec<bool>,
}

impl Tally {
    pub fn of(shape: &Shape) -> Tally {
        Tally { parts: vec![Count::default(); shape.parts.len()], answers: Vec::new(), tests: Vec::new() }
    }

    /// Counts a bar; the tests that alone kept the rule from a yes there.
    pub fn add(&mut self, shape: &Shape, answers: &Answers, at: Stamp) -> Vec<usize> {
        self.tests.clear();
        self.tests.extend(answers.tests.iter().map(|line| line.answer));
        shape.answers(&self.tests, &mut self.answers);
        debug_assert_eq!(self.answers[0], answers.answer);
        for (count, &said) in self.parts.iter_mut().zip(&self.answers) {
            count.add(said, at);
        }
        for (&part, line) in shape.tests.iter().zip(&answers.tests) {
            if !line.answer && is_missing(line) {
                self.parts[part].no -= 1;
                self.parts[part].missing += 1;
            }
        }
        if answers.answer {
            return Vec::new();
        }
        self.parts[answers.decided].decided += 1;
        let turning = shape.turning(&self.answers);
        turning.iter().for_each(|&test| self.parts[shape.tests[test]].turning += 1);
        turning
    }
}

#[cfg(test)]
mod tests {
    use super::*;

    #[test]
    fn stretches_are_of_bars_in_a_row() {
        let mut count = Count::default();
        for (bar, said) in [(3, false), (4, false), (5, true), (6, false), (7, false), (8, false), (10, false)] {
            count.add(said, Stamp { bar, time: bar as i64 });
        }
        assert_eq!((count.yes, count.no, count.longest), (1, 6, 3));
        assert_eq!((count.first.unwrap().bar, count.last.unwrap().bar), (3, 10));
    }
}
