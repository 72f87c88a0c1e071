//! `ysh`, a host tool over the proved engine Yshturpa: strategies to tables, tables in words, how deep a window has to be, how long a
//! box needs power to write it, runs over files of bars, and why a rule said what it said. It decides nothing itself: every answer about
//! rules comes from the library's calls.
#![forbid(unsafe_code)]

mod accounts;
mod axis;
mod bars;
mod blocked;
mod cli;
mod columns;
mod commands;
mod compare;
pub mod compile;
pub mod decompile;
mod dump;
mod files;
mod holdup;
mod lists;
mod output;
mod page;
mod problem;
mod progress;
mod range;
mod run;
mod settings_file;
mod show;
mod source;
pub mod strategy;
mod svg;
pub mod table;
mod times;
mod trials;
mod why;

use std::ffi::OsString;
use std::io::Write;

use clap::error::ErrorKind;
use clap::{CommandFactory, Parser};

use cli::{Cli, Command};
pub use problem::Problem;
use show::shown;
pub use source::Source;

/// What the program was asked, answered; its exit status: 0, 1 where the library refused something or two runs differ, 2 where input is bad, 3 where something
/// does not fit.
pub fn run(arguments: impl IntoIterator<Item = OsString>, out: &mut dyn Write, err: &mut dyn Write) -> u8 {
    let arguments: Vec<OsString> = arguments.into_iter().collect();
    let cli = match Cli::try_parse_from(&arguments) {
        Ok(cli) => cli,
        Err(error) => return not_understood(&error, &arguments, out, err),
    };
    let (text, rest, problems) = match cli.command {
        Command::Compile(asked) => commands::compile::answer(&asked),
        Command::Show(asked) => commands::show::answer(&asked),
        Command::Depth(asked) => commands::depth::answer(&asked),
        Command::Short(asked) => commands::short::answer(&asked),
        Command::Holdup(asked) => commands::holdup::answer(&asked, &arguments),
        Command::Run(asked) => commands::run::answer(&asked),
        Command::Why(asked) => commands::why::answer(&asked),
        Command::Blocked(asked) => commands::blocked::answer(&asked),
        Command::Dump(asked) => commands::dump::answer(&asked),
        Command::Schema => commands::schema::answer(),
        Command::Trials(asked) => commands::trials::answer(&asked),
        Command::Totals(asked) => commands::trials::totals(&asked),
        Command::Compare(asked) => commands::compare::answer(&asked),
        Command::Range(asked) => commands::range::answer(&asked),
        Command::Accounts(asked) => commands::accounts::answer(&asked),
        Command::Completions { shell } => commands::completions::answer(shell),
        Command::Manual => commands::manual::answer(),
    }
    .into_parts();
    let mut status = problems.status;
    let written = out.write_all(text.as_bytes()).and_then(|()| rest.map_or(Ok(()), |rest| rest(out)));
    if let Err(error) = whole(written.and_then(|()| out.flush())) {
        status = status.max(2);
        let _ = writeln!(err, "ysh: standard output: cannot be written: {error}");
    }
    for line in &problems.lines {
        if whole(writeln!(err, "ysh: {line}")).is_err() {
            status = status.max(2);
        }
    }
    status
}

/// A reader that has gone (`ysh show .. | head`) is no failure; any other is.
fn whole(written: std::io::Result<()>) -> std::io::Result<()> {
    match written {
        Err(error) if error.kind() == std::io::ErrorKind::BrokenPipe => Ok(()),
        written => written,
    }
}

/// Help as it is; of anything else the first paragraph, in a line, and the help that has more.
fn not_understood(error: &clap::Error, arguments: &[OsString], out: &mut dyn Write, err: &mut dyn Write) -> u8 {
    let text = error.to_string();
    if matches!(error.kind(), ErrorKind::DisplayHelp | ErrorKind::DisplayVersion) {
        return match whole(out.write_all(text.as_bytes()).and_then(|()| out.flush())) {
            Ok(()) => 0,
            Err(_) => 2,
        };
    }
    if error.kind() == ErrorKind::DisplayHelpOnMissingArgumentOrSubcommand {
        let _ = err.write_all(text.as_bytes());
        return 2;
    }
    let paragraph = text.lines().take_while(|line| !line.trim().is_empty()).map(str::trim);
    let line = paragraph.collect::<Vec<_>>().join(" ");
    let line = line.strip_prefix("error: ").unwrap_or(&line);
    let _ = writeln!(err, "ysh: {} (`{} --help` has what there is)", shown(line), asked_of(arguments));
    2
}

/// The program with the command, and the command below it, that arguments name.
fn asked_of(arguments: &[OsString]) -> String {
    let mut command = Cli::command();
    let mut names = vec!["ysh".to_owned()];
    for word in arguments.iter().skip(1).map(|word| word.to_string_lossy()) {
        match command.find_subcommand(word.as_ref()).cloned() {
            Some(below) => {
                names.push(word.into_owned());
                command = below;
            }
            None => break,
        }
    }
    names.join(" ")
}
