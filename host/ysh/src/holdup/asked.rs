//! The arguments of `ysh holdup`.

use std::path::PathBuf;

use clap::Args;

use super::plan::Commit;
use super::units::{
    parse_bytes, parse_capacitance, parse_efficiency, parse_percent, parse_power, parse_rate, parse_resistance,
    parse_share, parse_span, parse_time, parse_voltage, Share, Time,
};
use crate::cli::Reading;

const EXAMPLES: &str = "Examples:
  ysh holdup examples/strategies --page 256 --page-time 0.7ms --have 11ms
  ysh holdup --box A=one.json,two.json --box B=three.json --page 256 --page-time 0.7ms --page-time-most 3ms --have 40ms
  ysh holdup examples/strategies --page 256 --page-time 0.7ms --capacitance 1000uF --power 2.5W --drop-voltage 12V --lowest-voltage 6V
  ysh holdup this-year --against next-year --page 256 --page-time 0.7ms --have 11ms";

#[derive(Debug, Args)]
#[command(after_help = EXAMPLES)]
pub struct Holdup {
    /// Rule tables, strategies, or folders of them (files that end in .rtb or .json): the clients of one box, a dump each
    #[arg(required_unless_present = "boxes", conflicts_with = "boxes")]
    pub files: Vec<PathBuf>,
    /// A box by its name and what it holds, files or folders with commas between; a folder alone gives its own name. Once for each box
    #[arg(long = "box", value_name = "NAME=FILES", value_parser = parse_box)]
    pub boxes: Vec<BoxAsked>,
    /// The clients as they will be: which need more, how much, and whether what holds the FILES up still does (--have, --capacitance;
    /// left out, what the FILES take)
    #[arg(long, value_name = "NEW", num_args = 1.., conflicts_with = "boxes")]
    pub against: Vec<PathBuf>,
    /// Read the folders below a folder too
    #[arg(long)]
    pub recursive: bool,
    #[command(flatten)]
    pub flash: FlashAsked,
    #[command(flatten)]
    pub supply: SupplyAsked,
    #[command(flatten)]
    pub wanted: Wanted,
    #[command(flatten)]
    pub reading: Reading,
}

/// A box and the files or folders of its clients.
#[derive(Clone, Debug, PartialEq, Eq)]
pub struct BoxAsked {
    pub name: String,
    pub paths: Vec<PathBuf>,
}

fn parse_box(text: &str) -> Result<BoxAsked, String> {
    let (name, paths) = match text.split_once('=') {
        Some((name, paths)) => (name.to_owned(), paths.split(',').map(PathBuf::from).collect()),
        None => {
            let path = PathBuf::from(text);
            let name = path.file_name().map(|name| name.to_string_lossy().into_owned());
            (name.unwrap_or_else(|| text.to_owned()), vec![path])
        }
    };
    let named = !name.is_empty() && paths.iter().all(|path: &PathBuf| !path.as_os_str().is_empty());
    named.then_some(BoxAsked { name, paths }).ok_or_else(|| "NAME=FILE,FILE.. or a folder was expected".to_owned())
}

#[derive(Clone, Debug, Args)]
#[command(next_help_heading = "Flash and box")]
pub struct FlashAsked {
    /// Bytes of a page, such as 256 or 4KiB
    #[arg(long, value_name = "BYTES", value_parser = parse_bytes, allow_hyphen_values = true)]
    #[arg(conflicts_with = "rate")]
    pub page: Option<u64>,
    /// Time that a program of a page takes, such as 0.7ms
    #[arg(long, value_name = "TIME", value_parser = parse_span, allow_hyphen_values = true, requires = "page")]
    pub page_time: Option<Time>,
    /// The longest that it takes, where the data sheet has both: this one decides, and --page-time is told beside it
    #[arg(long, value_name = "TIME", value_parser = parse_span, allow_hyphen_values = true, requires = "page")]
    pub page_time_most: Option<Time>,
    /// In place of pages: bytes a second, such as 1.5MB/s
    #[arg(long, value_name = "BYTES/S", value_parser = parse_rate, allow_hyphen_values = true)]
    pub rate: Option<u64>,
    /// What is programmed last, and makes the image one (docs/FLASH.md)
    #[arg(long, value_enum, default_value_t, requires = "page")]
    pub commit: Commit,
    /// Time of the commit's own program, where a short program takes less than a page; left out, that of a page, and 0 with --rate
    #[arg(long, value_name = "TIME", value_parser = parse_time, allow_hyphen_values = true)]
    pub commit_time: Option<Time>,
    /// Bytes of a program unit, with --commit seal: what the seal takes behind the image; 16 where left out
    #[arg(long, value_name = "BYTES", value_parser = parse_bytes, allow_hyphen_values = true, requires = "page")]
    pub unit: Option<u64>,
    /// Programs of a dump that may have to be repeated
    #[arg(long, value_name = "N", value_parser = parse_retries, allow_hyphen_values = true, default_value = "0", requires = "page")]
    pub retries: u64,
    /// Erasing a dump's area, only where it is not erased ahead of the loss
    #[arg(long, value_name = "TIME", value_parser = parse_time, allow_hyphen_values = true, default_value = "0ms")]
    pub erase_time: Time,
    /// A fixed time before the first byte
    #[arg(long, value_name = "TIME", value_parser = parse_time, allow_hyphen_values = true, default_value = "0ms")]
    pub before: Time,
    /// The longest call that has to end before the dump begins: examples/c/longest measures it on the box
    #[arg(long, value_name = "TIME", value_parser = parse_time, allow_hyphen_values = true, default_value = "0ms")]
    pub call: Time,
    /// The program that consumes an image at the start, where the supply may fall in it: it counts where it takes longer than the longest call
    #[arg(long, value_name = "TIME", value_parser = parse_time, allow_hyphen_values = true, default_value = "0ms")]
    pub consume: Time,
    /// Where the time of the longest call is from, for the sheet
    #[arg(long, value_name = "TEXT", requires = "call")]
    pub call_from: Option<String>,
    /// Each file is a box of its own that writes N such dumps one after another, one a client: for boxes whose clients are not known yet
    #[arg(long, value_name = "N", value_parser = parse_dumps, allow_hyphen_values = true, conflicts_with_all = ["boxes", "against"])]
    pub dumps: Option<u64>,
    /// A margin on the whole time, such as 10%
    #[arg(long, value_name = "PERCENT", value_parser = parse_share, allow_hyphen_values = true, default_value = "0%")]
    pub margin: Share,
}

#[derive(Clone, Copy, Debug, Args)]
#[command(next_help_heading = "Supply")]
pub struct SupplyAsked {
    /// Power drawn while the dumps are written, such as 2.5W: at the load with --efficiency, else at the capacitor
    #[arg(long, value_name = "POWER", value_parser = parse_power, allow_hyphen_values = true)]
    #[arg(requires = "drop_voltage")]
    pub power: Option<f64>,
    /// Voltage at the capacitor when the supply drops, such as 12V
    #[arg(long, value_name = "VOLTAGE", value_parser = parse_voltage, allow_hyphen_values = true)]
    #[arg(requires = "lowest_voltage")]
    pub drop_voltage: Option<f64>,
    /// Lowest voltage that the box still runs at
    #[arg(long, value_name = "VOLTAGE", value_parser = parse_voltage, allow_hyphen_values = true, requires = "power")]
    pub lowest_voltage: Option<f64>,
    /// Efficiency of the converter between capacitor and load, such as 85%
    #[arg(long, value_name = "PERCENT", value_parser = parse_efficiency, allow_hyphen_values = true, requires = "power")]
    pub efficiency: Option<f64>,
    /// Resistance in series with the capacitor (its ESR), such as 50mohm
    #[arg(long, value_name = "OHMS", value_parser = parse_resistance, allow_hyphen_values = true, requires = "power")]
    pub esr: Option<f64>,
    /// What the capacitor's tolerance may take away, such as 20%
    #[arg(long, value_name = "PERCENT", value_parser = parse_percent, allow_hyphen_values = true)]
    #[arg(requires = "power", default_value = "0%")]
    pub tolerance: f64,
    /// What age may take away, such as 20%
    #[arg(long, value_name = "PERCENT", value_parser = parse_percent, allow_hyphen_values = true)]
    #[arg(requires = "power", default_value = "0%")]
    pub age: f64,
    /// What the lowest or highest temperature may take away, such as 10%
    #[arg(long, value_name = "PERCENT", value_parser = parse_percent, allow_hyphen_values = true)]
    #[arg(requires = "power", default_value = "0%")]
    pub temperature: f64,
    /// The capacitor that is there, such as 1000uF, in place of --have: the hold-up time that it gives
    #[arg(long, value_name = "FARADS", value_parser = parse_capacitance, allow_hyphen_values = true)]
    #[arg(requires = "power", conflicts_with = "have")]
    pub capacitance: Option<f64>,
}

#[derive(Clone, Debug, Args)]
#[command(next_help_heading = "Answer")]
pub struct Wanted {
    /// The hold-up time that is there, such as 11ms: which files fit, and which tests would fall silent in those that do not
    #[arg(long, value_name = "TIME", value_parser = parse_span, allow_hyphen_values = true)]
    pub have: Option<Time>,
    /// A table to hand to clients: the rows that fit for each number of slots, in the time that is there
    #[arg(long)]
    pub limits: bool,
    /// Write the answer as JSON
    #[arg(long)]
    pub json: bool,
    /// Write the answer as a page too, to be printed and signed
    #[arg(long, value_name = "FILE")]
    pub html: Option<PathBuf>,
    /// Write the page's chart, each client alone against the limit, as a picture of its own
    #[arg(long, value_name = "FILE")]
    pub svg: Option<PathBuf>,
}

fn parse_dumps(text: &str) -> Result<u64, String> {
    match text.parse() {
        Ok(n @ 1..=1_000_000) => Ok(n),
        _ => Err("a whole number from 1 to 1,000,000 was expected".to_owned()),
    }
}

fn parse_retries(text: &str) -> Result<u64, String> {
    match text.parse() {
        Ok(n @ 0..=1_000_000) => Ok(n),
        _ => Err("a whole number from 0 to 1,000,000 was expected".to_owned()),
    }
}
