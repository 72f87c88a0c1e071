//! The arguments of `ysh range`.

use std::path::PathBuf;

use clap::Args;

use crate::bars::Form;
use crate::why::place::{parse_place, Place};

const EXAMPLES: &str = "Examples:
  ysh range examples/bars/day.csv --from 100 --to 900
  ysh range year.csv --repeat stretches.csv --json";

#[derive(Debug, Args)]
#[command(after_help = EXAMPLES)]
pub struct Range {
    /// The bars, a CSV file as `ysh run` reads it
    #[arg(value_name = "BARS.csv")]
    pub bars: PathBuf,
    /// Where the stretch begins: a bar, as `ysh why --at` takes it, or the first bar at that time or after; left out, the first bar
    #[arg(long, value_name = "BAR|TIME", value_parser = parse_place, allow_hyphen_values = true)]
    pub from: Option<Place>,
    /// Where it ends, that bar included: a bar, or the last one at that time or before; left out, the last bar
    #[arg(long, value_name = "BAR|TIME", value_parser = parse_place, allow_hyphen_values = true)]
    pub to: Option<Place>,
    /// Answer many stretches: a file (CSV) with the columns from and to, a stretch a line, an empty cell for an end of the bars
    #[arg(long, value_name = "FILE", conflicts_with_all = ["from", "to"])]
    pub repeat: Option<PathBuf>,
    /// Write the answer as JSON; numbers are exact
    #[arg(long)]
    pub json: bool,
    #[command(flatten)]
    pub form: Form,
}
