//! The arguments of `ysh run`, and those that every command over bars has.

use std::path::PathBuf;

use clap::Args;

use crate::bars::{Form, OnRefusal};
use crate::cli::{parse_count, parse_lot, parse_money};
use crate::settings_file::SettingsFile;

const EXAMPLES: &str = "Examples:
  ysh run examples/strategies/crossover.json examples/bars/day.csv
  ysh run strategy.json bars.csv --html report.html --trades trades.csv --equity equity.csv
  ysh run table.rtb bars.csv --on-refusal skip --json

However long the bars are, the program takes the same memory. Past half a million numbers what a run leaves behind stands in temporary files
without a name, in the folder that TMPDIR names (/tmp where it names none): 16 bytes a bar, 80 a trade, and 8 a bar more for a page.";

#[derive(Debug, Args)]
#[command(after_help = EXAMPLES)]
pub struct Run {
    #[command(flatten)]
    pub over: Over,
    #[command(flatten)]
    pub wanted: Wanted,
}

/// What runs over what.
#[derive(Debug, Args)]
pub struct Over {
    /// A strategy, or a rule table with its settings beside it (TABLE.settings.json)
    pub file: PathBuf,
    /// The bars, a CSV file: the first line names the columns time, open, high, low, close, volume, one for each slot by its name and,
    /// where there is funding, mark and rate; then a bar a line. A time is a whole number, or a date and time such as
    /// 2026-01-05T10:31:00Z, which is read as milliseconds since 1970; an empty cell is an absent value. A file that ends in .gz or .zst is
    /// unpacked; - is standard input
    #[arg(value_name = "BARS.csv")]
    pub bars: PathBuf,
    /// What a bar that the engine refuses does to the run
    #[arg(long, value_name = "WHAT", value_enum, default_value = "stop")]
    pub on_refusal: OnRefusal,
    /// A key of a strategy that nothing reads is an error, and so are bars that look wrong: times that fall or repeat, gaps between times, a
    /// high below the low, a close outside both, a volume below 0
    #[arg(long)]
    pub strict: bool,
    #[command(flatten)]
    pub form: Form,
    #[command(flatten)]
    pub given: Given,
}

impl Over {
    /// The files that are read.
    pub fn read(&self) -> [PathBuf; 3] {
        [self.file.clone(), SettingsFile::beside(&self.file), self.bars.clone()]
    }
}

/// What a strategy leaves to whoever runs it.
#[derive(Clone, Copy, Debug, Default, Args)]
#[command(next_help_heading = "For a strategy (a table has these in its settings)")]
pub struct Given {
    /// Bars on which nothing is decided, where the strategy leaves that to its indicators
    #[arg(long, value_name = "BARS", value_parser = parse_count, allow_hyphen_values = true)]
    pub warmup: Option<u64>,
    /// The cash at the start; 10,000 where left out
    #[arg(long, value_name = "MONEY", value_parser = parse_money, allow_hyphen_values = true)]
    pub capital: Option<f64>,
    /// A quantity is a whole number of lots of this size, rounded down; any quantity where left out
    #[arg(long, value_name = "SIZE", value_parser = parse_lot, allow_hyphen_values = true)]
    pub lot: Option<f64>,
    /// Leave a short exit absent that the strategy leaves out beside a short entry, in place of the exit rule
    #[arg(long)]
    pub absent_short_exit: bool,
}

impl Given {
    /// The name of the first that was given, where any was.
    pub fn first(&self) -> Option<&'static str> {
        let named = [
            ("--warmup", self.warmup.is_some()),
            ("--capital", self.capital.is_some()),
            ("--lot", self.lot.is_some()),
            ("--absent-short-exit", self.absent_short_exit),
        ];
        named.into_iter().find(|(_, given)| *given).map(|(name, _)| name)
    }
}

#[derive(Clone, Debug, Args)]
#[command(next_help_heading = "Answer")]
pub struct Wanted {
    /// Write the trades as CSV: times, prices, quantity, pnl, return, reason, funding, worst price
    #[arg(long, value_name = "FILE")]
    pub trades: Option<PathBuf>,
    /// Write the equity at each bar's close as CSV
    #[arg(long, value_name = "FILE")]
    pub equity: Option<PathBuf>,
    /// Write everything as JSON in place of the summary; numbers are exact, one that is not finite is a text
    #[arg(long)]
    pub json: bool,
    /// Write a report as a page too: equity and drawdown, entries and exits on the closes, the table of trades
    #[arg(long, value_name = "FILE")]
    pub html: Option<PathBuf>,
}
