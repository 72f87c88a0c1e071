//! `ysh run`: rules over bars from a file.

use std::path::PathBuf;

use super::Answer;
use crate::bars::{Refusals, Way};
use crate::columns::counted;
use crate::output::Outputs;
use crate::problem::Problem;
use crate::run::asked::{Run, Wanted};
use crate::run::decisions::{decisions, Decision};
use crate::run::outcome::Outcome;
use crate::run::{csv, json, page, text, Ready};

/// As many refused bars as are told one by one.
const TOLD: usize = 20;

pub fn answer(asked: &Run) -> Answer {
    answered(asked).unwrap_or_else(Answer::from)
}

fn answered(asked: &Run) -> Result<Answer, Problem> {
    let way = Way { on_refusal: asked.over.on_refusal, after: None, until: None };
    // A page says why each trade was entered and left, for which the bars are looked at one by one first.
    let (ready, decisions) = match &asked.wanted.html {
        None => (Ready::of(&asked.over)?, Vec::new()),
        Some(_) => {
            let ready = Ready::kept(&asked.over)?;
            let decisions = decisions(&ready, asked.over.on_refusal)?;
            (ready, decisions)
        }
    };
    let outcome = Outcome::of(ready, way, asked.wanted.html.is_some())?;
    written(outcome, &decisions, &asked.wanted, asked.over.read())
}

/// The files that are wanted of a run, and the answer.
pub fn written(
    outcome: Outcome,
    decisions: &[Decision],
    wanted: &Wanted,
    read: impl IntoIterator<Item = PathBuf>,
) -> Result<Answer, Problem> {
    let mut outputs = Outputs::of(read);
    if let Some(path) = &wanted.trades {
        outputs.add_written(path, |out| csv::trades(&outcome.trades, out));
    }
    if let Some(path) = &wanted.equity {
        outputs.add_written(path, |out| csv::equity(&outcome.equity, out));
    }
    if let Some(path) = &wanted.html {
        outputs.add(path, page::page(&outcome, decisions));
    }
    outputs.write()?;
    let mut answer = Answer { document: wanted.json, ..Answer::default() };
    answer.doubts(&outcome.file, &outcome.doubts);
    answer.doubts(&outcome.bars_file, &outcome.odd);
    answer.notes(&outcome.file, &outcome.notes);
    refused(&mut answer, &outcome.bars_file, &outcome.refusals);
    match wanted.json {
        true => answer.rest = Some(Box::new(move |out| json::json(&outcome, out))),
        false => answer.text = text::text(&outcome),
    }
    Ok(answer)
}

/// The bars that were left out, the first of them one by one.
pub fn refused(answer: &mut Answer, bars_file: &str, refusals: &Refusals) {
    answer.problems = refusals.told.iter().take(TOLD).cloned().collect();
    if refusals.count > TOLD as u64 {
        let more = counted(refusals.count - TOLD as u64, "bar more was", "bars more were");
        answer.notes(bars_file, &[format!("{more} refused and left out")]);
    }
}
