//! The arguments of `ysh trials` and `ysh totals`.

use std::path::PathBuf;

use clap::{Args, Subcommand};

use crate::bars::{Form, OnRefusal};
use crate::run::asked::{Given, Over};

const EXAMPLES: &str = "The same runs give the same answer, byte for byte, with any number of threads, in any order of the files, and in any parts \
that are joined again.

Examples:
  ysh trials examples/strategies --bars examples/bars/day.csv --html trials.html
  ysh trials clients --recursive --bars 2025.csv 2026.csv --part 3/16 --totals part-3.json --resume part-3.journal
  ysh totals join part-*.json --csv runs.csv";

#[derive(Debug, Args)]
#[command(after_help = EXAMPLES)]
pub struct Trials {
    /// Strategies, rule tables with their settings beside them, or folders of them (files that end in .rtb or .json)
    #[arg(required = true)]
    pub files: Vec<PathBuf>,
    /// The files of bars, as `ysh run` reads them
    #[arg(long, value_name = "BARS.csv", required = true, num_args = 1..)]
    pub bars: Vec<PathBuf>,
    /// Read the folders below a folder too
    #[arg(long)]
    pub recursive: bool,
    /// How many runs go on at a time; as many as there are cores where left out
    #[arg(long, value_name = "N", value_parser = clap::value_parser!(u16).range(1..))]
    pub threads: Option<u16>,
    /// Only every N-th run, from the I-th on; I is 1 to N
    #[arg(long, value_name = "I/N", value_parser = parse_part, default_value = "1/1", hide_default_value = true)]
    pub part: Part,
    /// Keep each run in this file as soon as it is done, and go on from there where the file is of the same runs
    #[arg(long, value_name = "FILE")]
    pub resume: Option<PathBuf>,
    #[command(flatten)]
    pub how: How,
    #[command(flatten)]
    pub wanted: Wanted,
}

/// What else decides what a run comes to.
#[derive(Clone, Debug, Args)]
pub struct How {
    /// What a bar that the engine refuses does to its run: the run is refused, or goes on without the bar
    #[arg(long, value_name = "WHAT", value_enum, default_value = "stop")]
    pub on_refusal: OnRefusal,
    /// A key of a strategy that nothing reads is an error, and so are bars that look wrong, as in `ysh run`
    #[arg(long)]
    pub strict: bool,
    #[command(flatten)]
    pub form: Form,
    #[command(flatten)]
    pub given: Given,
}

impl How {
    /// A run of a file over bars.
    pub fn over(&self, file: PathBuf, bars: PathBuf) -> Over {
        let How { on_refusal, strict, form, given } = self.clone();
        Over { file, bars, on_refusal, strict, form, given }
    }
}

#[derive(Clone, Debug, Args)]
#[command(next_help_heading = "Answer")]
pub struct Wanted {
    /// Write the runs and their exact totals to a file, for `ysh totals join`
    #[arg(long, value_name = "FILE")]
    pub totals: Option<PathBuf>,
    /// Write the runs as CSV, a row each, in exact numbers
    #[arg(long, value_name = "FILE")]
    pub csv: Option<PathBuf>,
    /// Write everything as JSON in place of the table; numbers are exact, one that is not finite is a text
    #[arg(long)]
    pub json: bool,
    /// Write a page too: the runs in a table that a click sorts, an equity curve each, return against drawdown
    #[arg(long, value_name = "FILE")]
    pub html: Option<PathBuf>,
}

/// The part of the runs that is done: every `of`-th from the `part`-th on, counted from 1.
#[derive(Clone, Copy, Debug, PartialEq, Eq)]
pub struct Part {
    pub part: u64,
    pub of: u64,
}

impl Part {
    /// Whether a run, by its number from 0, is of this part.
    pub fn has(self, run: u64) -> bool {
        run % self.of == self.part - 1
    }
}

fn parse_part(text: &str) -> Result<Part, String> {
    let both = text.split_once('/').and_then(|(part, of)| Some((part.parse().ok()?, of.parse().ok()?)));
    match both {
        Some((part, of)) if (1..=of).contains(&part) && of <= 1_000_000 => Ok(Part { part, of }),
        _ => Err("a part of so many was expected, such as 3/16, the first being 1/16".to_owned()),
    }
}

#[derive(Debug, Args)]
pub struct Totals {
    #[command(subcommand)]
    pub which: Which,
}

#[derive(Debug, Subcommand)]
pub enum Which {
    /// Joins the parts of `ysh trials --part I/N --totals FILE`: the answer is that of all runs in one process
    Join(Join),
}

#[derive(Debug, Args)]
pub struct Join {
    /// The files that --totals wrote; a part that is there twice, or that is of other files, is refused
    #[arg(required = true)]
    pub files: Vec<PathBuf>,
    /// Join what is there, though parts are missing
    #[arg(long)]
    pub partial: bool,
    #[command(flatten)]
    pub wanted: Wanted,
}

#[cfg(test)]
mod tests {
    use super::*;

    #[test]
    fn parts() {
        assert_eq!(parse_part("3/16"), Ok(Part { part: 3, of: 16 }));
        for bad in ["", "3", "0/4", "5/4", "1/0", "-1/4", "1/4/4", "a/b"] {
            assert!(parse_part(bad).is_err(), "{bad}");
        }
        let of_four = |run| (1..=4).filter(|&part| Part { part, of: 4 }.has(run)).collect::<Vec<_>>();
        assert_eq!((of_four(0), of_four(6)), (vec![1], vec![3]));
    }
}
