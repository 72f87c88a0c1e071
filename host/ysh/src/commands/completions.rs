//! `ysh completions`: what a shell completes, made from the arguments.

use clap::CommandFactory;
use clap_complete::{generate, Shell};

use super::Answer;
use crate::cli::Cli;

pub fn answer(shell: Shell) -> Answer {
    let mut written = Vec::new();
    generate(shell, &mut Cli::command(), "ysh", &mut written);
    Answer { text: String::from_utf8(written).expect("a script is text"), document: true, ..Answer::default() }
}
