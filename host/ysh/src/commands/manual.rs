//! `ysh manual`: the manual page, made from the help texts.

use clap::{Arg, Command, CommandFactory};
use roff::{bold, italic, roman, Inline, Roff};

use super::Answer;
use crate::cli::Cli;

pub fn answer() -> Answer {
    let mut command = Cli::command();
    command.build();
    Answer { text: page(&command), ..Answer::default() }
}

fn page(command: &Command) -> String {
    let mut page = Roff::new();
    let version = command.get_version().unwrap_or_default();
    page.control("TH", ["YSH", "1", "", &format!("ysh {version}"), "Yshturpa"]);
    page.control("SH", ["NAME"]);
    page.text([roman("ysh - a host tool over the proved engine Yshturpa")]);
    page.control("SH", ["SYNOPSIS"]);
    page.text([bold("ysh"), roman(" "), italic("COMMAND"), roman(" [OPTIONS]")]);
    page.control("SH", ["DESCRIPTION"]);
    page.text([roman(told(command))]);
    for one in commands(command) {
        let name = one.get_name().to_owned();
        page.control("SH", [&format!("ysh {name}").to_uppercase()[..]]);
        described(&mut page, one);
        for below in commands(one) {
            page.control("SS", [&format!("ysh {name} {}", below.get_name())[..]]);
            described(&mut page, below);
        }
    }
    page.control("SH", ["EXIT STATUS"]);
    page.text([roman(after(command))]);
    page.render()
}

/// The commands of a command, but for its help.
fn commands(command: &Command) -> impl Iterator<Item = &Command> {
    command.get_subcommands().filter(|one| one.get_name() != "help" && !one.is_hide_set())
}

fn told(command: &Command) -> String {
    command.get_long_about().or(command.get_about()).map_or(String::new(), ToString::to_string)
}

fn after(command: &Command) -> String {
    command.get_after_long_help().or(command.get_after_help()).map_or(String::new(), ToString::to_string)
}

/// What a command is for, how it is called, and each of its arguments.
fn described(page: &mut Roff, command: &Command) {
    page.text([roman(told(command))]);
    if command.has_subcommands() {
        return;
    }
    let usage = command.clone().render_usage().to_string();
    page.control("PP", []);
    page.text([bold(usage.trim_start_matches("Usage:").trim())]);
    let mut heading = None;
    for argument in command.get_arguments().filter(|argument| argument.get_id() != "help") {
        if argument.get_help_heading() != heading {
            heading = argument.get_help_heading();
            page.control("PP", []);
            page.text([italic(heading.unwrap_or("Other"))]);
        }
        page.control("TP", []);
        page.text(named(argument));
        page.text([roman(help(argument))]);
    }
    let after = after(command);
    if !after.is_empty() {
        // As it stands, line by line.
        page.control("PP", []);
        page.control("nf", []);
        for line in after.lines() {
            page.text([roman(line)]);
        }
        page.control("fi", []);
    }
}

/// `-o, --output TABLE`, or `FILE` for an argument without a name.
fn named(argument: &Arg) -> Vec<Inline> {
    let dashed = [argument.get_short().map(|c| format!("-{c}")), argument.get_long().map(|name| format!("--{name}"))];
    let dashed: Vec<String> = dashed.into_iter().flatten().collect();
    let takes = argument.get_num_args().is_some_and(|count| count.takes_values());
    let values = argument.get_value_names().unwrap_or_default().iter().map(|name| name.to_string());
    let values = if takes { values.collect::<Vec<_>>().join(" ") } else { String::new() };
    let blank = if dashed.is_empty() || values.is_empty() { "" } else { " " };
    vec![bold(dashed.join(", ")), roman(blank), italic(values)]
}

/// What an argument is, what it can be, and what it is where it is left out.
fn help(argument: &Arg) -> String {
    let mut said = argument.get_long_help().or(argument.get_help()).map_or(String::new(), ToString::to_string);
    let takes = argument.get_num_args().is_some_and(|count| count.takes_values());
    if !takes {
        return said;
    }
    for value in argument.get_possible_values() {
        let help = value.get_help().map_or(String::new(), |help| format!(": {help}"));
        said.push_str(&format!("; {}{help}", value.get_name()));
    }
    let default: Vec<String> =
        argument.get_default_values().iter().map(|value| value.to_string_lossy().into_owned()).collect();
    if !default.is_empty() {
        said.push_str(&format!(" [default: {}]", default.join(" ")));
    }
    said
}
