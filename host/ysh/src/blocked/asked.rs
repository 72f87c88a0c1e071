//! The arguments of `ysh blocked`.

use std::path::PathBuf;

use clap::Args;

use crate::run::asked::Over;
use crate::why::asked::TreeName;
use crate::why::place::{parse_place, Place};

const EXAMPLES: &str = "Examples:
  ysh blocked examples/strategies/breakout.json examples/bars/day.csv
  ysh blocked strategy.json bars.csv --from 09:30 --to 16:00 --html blocked.html
  ysh blocked strategy.json year.csv.zst --tree exit --json";

#[derive(Debug, Args)]
#[command(after_help = EXAMPLES)]
pub struct Blocked {
    #[command(flatten)]
    pub over: Over,
    /// The first bar that is counted, by its number or its time, as `ysh why --at` has them; left out, the first of the file
    #[arg(long, value_name = "BAR|TIME", value_parser = parse_place, allow_hyphen_values = true)]
    pub from: Option<Place>,
    /// The last bar that is counted; left out, the last of the file
    #[arg(long, value_name = "BAR|TIME", value_parser = parse_place, allow_hyphen_values = true)]
    pub to: Option<Place>,
    /// The rule that is asked about
    #[arg(long, value_name = "TREE", value_enum, default_value = "entry")]
    pub tree: TreeName,
    /// Write the answer as JSON
    #[arg(long)]
    pub json: bool,
    /// Write a page too: the rule with its counts, and a strip over time with what each test said; a click shows a bar's chain
    #[arg(long, value_name = "FILE")]
    pub html: Option<PathBuf>,
}
