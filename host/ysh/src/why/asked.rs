//! The arguments of `ysh why`.

use std::path::PathBuf;

use clap::{Args, ValueEnum};
use yshturpa::Tree;

use super::place::{parse_place, Place};
use crate::run::asked::Over;

const EXAMPLES: &str = "Examples:
  ysh why examples/strategies/breakout.json examples/bars/day.csv --at 900
  ysh why strategy.json bars.csv --at 10:31
  ysh why strategy.json bars.csv --at '2026-01-05 10:31' --tree entry --html why.html
  ysh why strategy.json bars.csv.gz --at 2026-01-05T12:31:00+02:00 --json";

#[derive(Debug, Args)]
#[command(after_help = EXAMPLES)]
pub struct Why {
    #[command(flatten)]
    pub over: Over,
    /// The bar: its number from 0 (bar:N), its time as the file has it (time:N), a date and time (UTC where no zone is given), a time of
    /// day where the bars are of one day, or N alone, which is a number where the file has so many bars. Where no bar has that date and
    /// time, it is the last before it
    #[arg(long, value_name = "BAR|TIME", value_parser = parse_place, allow_hyphen_values = true)]
    pub at: Place,
    /// The rule that is asked about; left out, what the engine asked at that bar
    #[arg(long, value_name = "TREE", value_enum)]
    pub tree: Option<TreeName>,
    /// Write the answer as JSON; numbers are exact, one that is not finite is a text
    #[arg(long)]
    pub json: bool,
    /// Write the whole rule as a page too, drawn as a tree with the chain marked and each value beside its node
    #[arg(long, value_name = "FILE")]
    pub html: Option<PathBuf>,
}

#[derive(Clone, Copy, Debug, PartialEq, Eq, ValueEnum)]
pub enum TreeName {
    Entry,
    Exit,
    ShortEntry,
    ShortExit,
}

impl TreeName {
    pub fn tree(self) -> Tree {
        Tree::ALL[self as usize]
    }
}
