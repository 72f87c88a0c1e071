//! The arguments of `ysh compare`.

use std::path::PathBuf;

use clap::Args;

use crate::trials::asked::How;

const EXAMPLES: &str = "The exit status is 0 where nothing differs, and 1 where something does.

Examples:
  ysh run strategy.json bars.csv --json > before.json; ysh run strategy.json other.csv --json > after.json
  ysh compare before.json after.json --html compared.html
  ysh compare strategy.json bars.csv --lib-a old/libcapi.so --lib-b new/libcapi.a";

#[derive(Debug, Args)]
#[command(after_help = EXAMPLES)]
pub struct Compare {
    /// A run, as `ysh run --json` wrote it; with --lib-a or --lib-b the strategy, or the table with its settings beside it
    #[arg(value_name = "A")]
    pub first: PathBuf,
    /// The run that it is compared with; with --lib-a or --lib-b the bars, a CSV file
    #[arg(value_name = "B")]
    pub second: PathBuf,
    #[command(flatten)]
    pub how: How,
    #[command(flatten)]
    pub libraries: Libraries,
    #[command(flatten)]
    pub wanted: Wanted,
}

/// Two builds of the engine's library; the one that is not named is the one that this program was built with. A shared object is
/// loaded as it is, an archive (.a) is linked into one first, by the C compiler (CC, or cc).
#[derive(Clone, Debug, Args)]
#[command(next_help_heading = "Two libraries")]
pub struct Libraries {
    /// The library of the first run, such as a controller's before its update; its code is run by this program
    #[arg(long, value_name = "LIBRARY")]
    pub lib_a: Option<PathBuf>,
    /// The library of the second run
    #[arg(long, value_name = "LIBRARY")]
    pub lib_b: Option<PathBuf>,
}

#[derive(Clone, Debug, Args)]
#[command(next_help_heading = "Answer")]
pub struct Wanted {
    /// Write what differs as JSON in place of the text; numbers are exact, one that is not finite is a text
    #[arg(long)]
    pub json: bool,
    /// Write a page too: both curves, the place where they part, every trade that differs
    #[arg(long, value_name = "FILE")]
    pub html: Option<PathBuf>,
}
