//! The arguments of `ysh`.

use std::path::PathBuf;

use clap::{Args, Parser, Subcommand};
use clap_complete::Shell;

use crate::accounts::asked::Accounts;
use crate::blocked::asked::Blocked;
use crate::compare::asked::Compare;
use crate::dump::asked::Dump;
use crate::holdup::asked::Holdup;
use crate::range::asked::Range;
use crate::run::asked::Run;
use crate::trials::asked::{Totals, Trials};
use crate::why::asked::Why;

/// From a strategy to the capacitors: how deep a box's window of bars has to be, how long its dump takes, and how large a capacitor
/// that needs; and what a strategy does over bars from a file. Every answer about rules is the proved library's.
#[derive(Debug, Parser)]
#[command(name = "ysh", version, max_term_width = 110, after_help = STATUS)]
pub struct Cli {
    #[command(subcommand)]
    pub command: Command,
}

const STATUS: &str = "The exit status is 0; 1 where the library refused something, which is told with its number and place, or where two runs differ (ysh compare); 2 where input \
    is bad, which is told in one line with its file and place; 3 where a box does not fit in the time that is there (ysh holdup).";

#[derive(Debug, Subcommand)]
pub enum Command {
    /// A strategy to a rule table and the settings beside it
    Compile(Compile),
    /// A table or a strategy as readable rules, a node a line
    Show(Show),
    /// How deep each file's window is, its bytes, and what makes it that deep
    Depth(Depth),
    /// Which tests fall silent in a window of so many rows
    Short(Short),
    /// How long the dumps take after the supply drops, and how large a capacitor that needs
    Holdup(Box<Holdup>),
    /// A strategy or a table over bars from a file: trades, equity and the nine metrics
    Run(Run),
    /// Why a rule said yes or no at a bar: the chain from its root to what decided, in words
    Why(Why),
    /// Which tests kept a rule from a yes over a stretch of bars: how often each decided, was no or had no value
    Blocked(Blocked),
    /// A box's dump: what an image holds, one made from a run, a run that goes on from one, one that is cut short
    Dump(Dump),
    /// A JSON schema of strategies, for editors; docs/STRATEGY.md says what each key means
    Schema,
    /// Every strategy over every file of bars: a row a run, and the exact totals of all of them
    Trials(Trials),
    /// The exact totals of parts of trials, joined
    Totals(Totals),
    /// Two runs side by side: what differs between two files, or between two libraries over the same bars
    Compare(Compare),
    /// The high and the low of a stretch of closes, by blocks
    Range(Range),
    /// Four paper accounts on one stream of bars: the report of each, and which one stopped where and why
    Accounts(Accounts),
    /// What a shell completes; `ysh completions bash > /etc/bash_completion.d/ysh`, or as the shell's own guide says
    Completions {
        /// The shell
        #[arg(value_enum)]
        shell: Shell,
    },
    /// The manual page of all commands; `ysh manual > ysh.1`, then `man -l ysh.1`
    Manual,
}

#[derive(Debug, Args)]
pub struct Compile {
    /// The strategy, a JSON document
    pub strategy: PathBuf,
    /// The rule table to write; its settings go to TABLE.settings.json
    #[arg(short, long, value_name = "TABLE")]
    pub output: PathBuf,
    /// Bars on which nothing is decided, where the strategy leaves that to its indicators
    #[arg(long, value_name = "BARS", value_parser = parse_count, allow_hyphen_values = true)]
    pub warmup: Option<u64>,
    /// The cash at the start
    #[arg(long, value_name = "MONEY", default_value = "10000", value_parser = parse_money, allow_hyphen_values = true)]
    pub capital: f64,
    /// A quantity is a whole number of lots of this size, rounded down; 0 is any quantity
    #[arg(long, value_name = "SIZE", default_value = "0", value_parser = parse_lot, allow_hyphen_values = true)]
    pub lot: f64,
    /// The slots in this order, read by a rule or not; left out, they are the names that rules read, by their letters
    #[arg(long, value_name = "NAME", value_delimiter = ',')]
    pub slots: Option<Vec<String>>,
    /// Leave a short exit absent that the strategy leaves out beside a short entry, in place of the exit rule
    #[arg(long)]
    pub absent_short_exit: bool,
    /// A file for the settings as a box's 32 words, little-endian
    #[arg(long, value_name = "FILE")]
    pub words: Option<PathBuf>,
    /// A key of the strategy that nothing reads is an error
    #[arg(long)]
    pub strict: bool,
}

#[derive(Debug, Args)]
pub struct Show {
    /// A rule table or a strategy
    pub file: PathBuf,
    /// Write the rules as a strategy document, which `ysh compile` reads
    #[arg(long)]
    pub json: bool,
    #[command(flatten)]
    pub reading: Reading,
}

#[derive(Debug, Args)]
pub struct Depth {
    /// Rule tables, strategies, or folders of them (files that end in .rtb or .json)
    #[arg(required = true)]
    pub files: Vec<PathBuf>,
    /// Read the folders below a folder too
    #[arg(long)]
    pub recursive: bool,
    #[command(flatten)]
    pub reading: Reading,
}

#[derive(Debug, Args)]
pub struct Short {
    /// Rule tables, strategies, or folders of them (files that end in .rtb or .json)
    #[arg(required = true)]
    pub files: Vec<PathBuf>,
    /// The rows of the window
    #[arg(long, value_name = "N", value_parser = parse_count, allow_hyphen_values = true)]
    pub rows: u64,
    /// Read the folders below a folder too
    #[arg(long)]
    pub recursive: bool,
    #[command(flatten)]
    pub reading: Reading,
}

/// How files are read.
#[derive(Clone, Copy, Debug, Default, Args)]
pub struct Reading {
    /// The lookback of a volatility target, for a table that has no settings beside it
    #[arg(long, value_name = "BARS", value_parser = parse_count, allow_hyphen_values = true)]
    pub lookback: Option<u64>,
    /// A key of a strategy that nothing reads is an error, and so is a table without settings
    #[arg(long)]
    pub strict: bool,
}

pub fn parse_count(text: &str) -> Result<u64, String> {
    match text.parse() {
        Ok(n @ 0..=0xffff_ffff) => Ok(n),
        _ => Err("a whole number from 0 to 4,294,967,295 was expected".to_owned()),
    }
}

pub fn parse_lot(text: &str) -> Result<f64, String> {
    match text.parse::<f64>() {
        Ok(x) if x.is_finite() && x >= 0.0 => Ok(x),
        _ => Err("a finite number from 0 up was expected".to_owned()),
    }
}

pub fn parse_money(text: &str) -> Result<f64, String> {
    match text.parse::<f64>() {
        Ok(x) if x.is_finite() => Ok(x),
        _ => Err("a finite number was expected".to_owned()),
    }
}
