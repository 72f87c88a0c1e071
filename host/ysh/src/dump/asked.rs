//! The arguments of `ysh dump`.

use std::path::PathBuf;

use clap::{Args, Subcommand};

use crate::cli::parse_count;
use crate::run::asked::{Over, Wanted};
use crate::why::place::{parse_place, Place};

#[derive(Debug, Args)]
pub struct Dump {
    #[command(subcommand)]
    pub which: Which,
}

#[derive(Debug, Subcommand)]
pub enum Which {
    /// What an image holds, or why it is refused
    Show(Show),
    /// Makes an image of a run after one of its bars
    Take(Take),
    /// Goes on from an image
    Resume(Resume),
    /// What a supply that is lost after so many bytes leaves
    Cut(Cut),
}

#[derive(Debug, Args)]
pub struct Show {
    /// The image
    pub image: PathBuf,
}

#[derive(Debug, Args)]
pub struct Take {
    #[command(flatten)]
    pub over: Over,
    /// The last bar that the image has seen: bar:N, time:N, a date and time, a time of day, or N alone, which is a number where the file
    /// has so many bars (as `ysh why --at`)
    #[arg(long, value_name = "BAR|TIME", value_parser = parse_place, allow_hyphen_values = true)]
    pub at: Place,
    /// The image to write
    #[arg(short, long, value_name = "IMAGE")]
    pub output: PathBuf,
}

#[derive(Debug, Args)]
pub struct Resume {
    /// The image
    pub image: PathBuf,
    #[command(flatten)]
    pub over: Over,
    /// The file has only the bars that come after the image. Left out, it has those before too: the run goes on after the bar that the
    /// image saw last
    #[arg(long)]
    pub rest: bool,
    #[command(flatten)]
    pub wanted: Wanted,
}

#[derive(Debug, Args)]
pub struct Cut {
    /// A whole image
    pub image: PathBuf,
    /// The bytes that were written, in the order of writing: the rows, the header, the mark last
    #[arg(long, value_name = "N", value_parser = parse_count, allow_hyphen_values = true)]
    pub bytes: u64,
    /// Write what is left there
    #[arg(short, long, value_name = "FILE")]
    pub output: Option<PathBuf>,
}
