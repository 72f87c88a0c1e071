//! `ysh compile`: a strategy to a rule table and the settings beside it.

use std::path::Path;

use yshturpa::Settings;

use super::Answer;
use crate::cli::Compile;
use crate::columns::{counted, grouped};
use crate::compile::{settings, warmup, Choices, Rules};
use crate::files::{bytes_of, name_of, text_of};
use crate::output::Outputs;
use crate::problem::Problem;
use crate::settings_file::SettingsFile;
use crate::show::shown;
use crate::source::{Size, Source};
use crate::strategy::Strategy;

pub fn answer(asked: &Compile) -> Answer {
    compiled(asked).unwrap_or_else(Answer::from)
}

fn compiled(asked: &Compile) -> Result<Answer, Problem> {
    let file = name_of(&asked.strategy);
    let text = text_of(&file, bytes_of(&asked.strategy)?)?;
    let choices = Choices { order: asked.slots.as_deref(), absent_short_exit: asked.absent_short_exit };
    let source = Source::of_strategy(&file, &text, choices)?.held_to(asked.strict)?;
    let strategy = source.strategy.as_ref().expect("it was read from a strategy");
    let warmup = warmup(strategy, asked.warmup).map_err(|fault| Problem::fault(&file, fault))?;
    let rules = Rules { table: source.table.clone(), names: source.names.clone(), paths: source.paths.clone() };
    let settings = settings(strategy, &rules, warmup, asked.capital).map_err(|stopped| Problem::of(&file, stopped))?;
    let settings = Settings { lot: asked.lot, ..settings };
    write(asked, strategy, &rules, &settings)?;
    let mut answer = report(&source, &source.size()?, &asked.output);
    answer.notes(&file, &source.notes);
    answer.doubts(&file, &source.doubts);
    Ok(answer)
}

fn write(asked: &Compile, strategy: &Strategy, rules: &Rules, settings: &Settings) -> Result<(), Problem> {
    let beside = SettingsFile::new(rules, strategy.sizing, strategy.costs.slippage, settings);
    let mut outputs = Outputs::of([&asked.strategy]);
    outputs.add(&asked.output, rules.table.clone());
    outputs.add(&SettingsFile::beside(&asked.output), beside.text());
    if let Some(path) = &asked.words {
        outputs.add(path, settings.words().map(u64::to_le_bytes).concat());
    }
    outputs.write()
}

fn report(source: &Source, size: &Size, output: &Path) -> Answer {
    let mut answer = Answer::default();
    let nodes = counted(source.forest.nodes.len() as u64, "node", "nodes");
    answer.line(format!("{}: {nodes}, {}", name_of(output), counted(size.slots, "slot", "slots")));
    answer.line(format!(
        "window {}, {} bytes; dump {} bytes",
        counted(size.rows, "row", "rows"),
        grouped(size.window),
        grouped(size.dump)
    ));
    for (slot, name) in source.names.iter().enumerate() {
        answer.line(format!("slot {slot:>2}  {}", shown(name)));
    }
    answer
}
