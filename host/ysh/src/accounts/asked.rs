//! The arguments of `ysh accounts`.

use std::path::PathBuf;

use clap::Args;

use crate::trials::asked::How;

const EXAMPLES: &str = "An account is long only, and has a leverage of at most 1; another is stopped with 21. A bar that the stream refuses, for a
number that is not finite in any column that an account reads, is in no account.

Example:
  ysh accounts a.json b.json c.json d.json --bars bars.csv --reports reports";

#[derive(Debug, Args)]
#[command(after_help = EXAMPLES)]
pub struct Accounts {
    /// Four strategies, or rule tables with their settings beside them; the slots of a table have to be the stream's first ones
    #[arg(value_names = ["A", "B", "C", "D"], num_args = 4, required = true)]
    pub files: Vec<PathBuf>,
    /// The bars, a CSV file as `ysh run` reads it, with a column for each slot of each account
    #[arg(long, value_name = "BARS.csv", required = true)]
    pub bars: PathBuf,
    /// Write each account's report into a folder, as `ysh run --html` writes it: account-1.html to account-4.html
    #[arg(long, value_name = "FOLDER")]
    pub reports: Option<PathBuf>,
    /// Write everything as JSON: for each account how it ended, and its run as `ysh run --json` writes it
    #[arg(long)]
    pub json: bool,
    #[command(flatten)]
    pub how: How,
}
