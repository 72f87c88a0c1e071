//! The runs that were done and their totals, for programs and for `ysh totals join`: numbers are exact, and what went in is named.

use std::collections::BTreeSet;
use std::path::Path;

use serde::{Deserialize, Serialize};
use yshturpa::{Refusal, Totals};

use super::asked::Part;
use super::inputs::Inputs;
use super::row::Row;
use super::sum::Sum;
use crate::files::name_of;
use crate::problem::Problem;
use crate::run::json::Exact;

const WHAT: &str = "totals of ysh trials, 1";

#[derive(Clone, Debug, PartialEq, Serialize, Deserialize)]
#[serde(deny_unknown_fields)]
pub struct Document {
    what: String,
    pub inputs: Inputs,
    pub parts: Parts,
    pub totals: Totaled,
    /// By their numbers.
    pub runs: Vec<Row>,
}

/// The parts that are done, in their order, and how many there are; all of them are part 1 of 1.
#[derive(Clone, Debug, PartialEq, Eq, Serialize, Deserialize)]
#[serde(deny_unknown_fields)]
pub struct Parts {
    pub of: u64,
    pub done: Vec<u64>,
}

impl Parts {
    pub fn new(of: u64, mut done: Vec<u64>) -> Parts {
        done.sort_unstable();
        match done.len() as u64 == of {
            true => Parts { of: 1, done: vec![1] },
            false => Parts { of, done },
        }
    }

    fn has(&self, run: u64) -> bool {
        self.done.iter().any(|&part| Part { part, of: self.of }.has(run))
    }

    /// Parts of so many, each once, in their order.
    fn is_fine(&self) -> bool {
        let rising = self.done.windows(2).all(|two| two[0] < two[1]);
        self.of > 0 && rising && !self.done.is_empty() && self.done.iter().all(|part| (1..=self.of).contains(part))
    }

    pub fn missing(&self) -> Vec<u64> {
        (1..=self.of).filter(|part| !self.done.contains(part)).collect()
    }
}

#[derive(Clone, Debug, PartialEq, Serialize, Deserialize)]
#[serde(deny_unknown_fields)]
pub struct Totaled {
    pub runs: u64,
    pub refused_runs: u64,
    pub trades: u64,
    /// The float nearest to the exact sum.
    pub pnl: Exact,
    pub exact: Sum,
}

impl Totaled {
    fn of(runs: &[Row], totals: &Totals) -> Totaled {
        Totaled {
            runs: runs.len() as u64,
            refused_runs: runs.iter().filter(|row| row.refused().is_some()).count() as u64,
            trades: totals.trades(),
            pnl: Exact(totals.pnl()),
            exact: Sum::of(totals),
        }
    }
}

impl Document {
    /// The totals are those of the rows, joined one by one; refused where there are more trades than can be counted (22).
    pub fn new(inputs: Inputs, parts: Parts, mut runs: Vec<Row>) -> Result<Document, Problem> {
        runs.sort_by_key(|row| row.run);
        let mut totals = Totals::default();
        for (row, figures) in runs.iter().filter_map(|row| Some((row, row.ran()?))) {
            let told = |text: &str| Problem::input(&row.file, "", text);
            let own = figures.totals.totals().ok_or_else(|| told("its totals are none that a run has"))?;
            totals.join(&own).map_err(|refusal: Refusal| Problem::refused(&row.file, refusal))?;
        }
        let totals = Totaled::of(&runs, &totals);
        Ok(Document { what: WHAT.to_owned(), inputs, parts, totals, runs })
    }

    /// What is doubtful of the runs: a file's doubts once, whatever the number of its runs.
    pub fn doubts(&self) -> BTreeSet<&str> {
        self.runs.iter().filter_map(Row::ran).flat_map(|ran| ran.doubts.iter().map(String::as_str)).collect()
    }

    pub fn json(&self) -> String {
        serde_json::to_string(self).expect("an answer is JSON") + "\n"
    }

    /// Reads what `--totals` wrote: whole, and as it was written.
    pub fn read(path: &Path) -> Result<Document, Problem> {
        let name = name_of(path);
        let wrong = |text: &str| Problem::input(&name, "", text);
        let text = std::fs::read_to_string(path).map_err(|error| {
            let problem = Problem::io(&name, "read", &error);
            Problem { text: format!("{}; a file that --totals wrote was expected", problem.text), ..problem }
        })?;
        let read: Document = serde_json::from_str(&text).map_err(|error| {
            let text = format!("a file that `ysh trials --totals` wrote was expected: {error}");
            Problem::input(&name, "", text)
        })?;
        if read.what != WHAT {
            return Err(wrong("totals of `ysh trials` were expected, in the form of this version"));
        }
        if !read.inputs.is_sealed() {
            return Err(wrong("inputs: their SHA-256 is not the one that stands there"));
        }
        if !read.parts.is_fine() || !read.is_whole() {
            return Err(wrong("runs: they are not those of its parts"));
        }
        let again = Document::new(read.inputs.clone(), read.parts.clone(), read.runs.clone())?;
        match again.totals == read.totals {
            true => Ok(read),
            false => Err(wrong("totals: they are not those of its runs")),
        }
    }

    /// Whether the rows are those of the parts, under the names of the inputs.
    fn is_whole(&self) -> bool {
        let expected: Vec<u64> = (0..self.inputs.runs()).filter(|run| self.parts.has(*run)).collect();
        let fits = |row: &Row| {
            let (strategy, bars) = self.inputs.files_of(row.run);
            (&row.file, &row.bars_file) == (&strategy.file, &bars.file)
        };
        self.runs.iter().map(|row| row.run).eq(expected) && self.runs.iter().all(fits)
    }
}

#[cfg(test)]
mod tests {
    use super::*;

    #[test]
    fn all_parts_are_the_whole() {
        assert_eq!(Parts::new(3, vec![3, 1, 2]), Parts { of: 1, done: vec![1] });
        let some = Parts::new(3, vec![3, 1]);
        assert_eq!((some.missing(), some.is_fine(), some.has(1), some.has(2)), (vec![2], true, false, true));
        for bad in [(0, vec![]), (2, vec![]), (2, vec![3]), (3, vec![2, 1]), (3, vec![1, 1])] {
            assert!(!Parts { of: bad.0, done: bad.1 }.is_fine());
        }
    }
}
