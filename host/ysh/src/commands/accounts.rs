//! `ysh accounts`: four paper accounts on one stream.

use std::path::Path;

use super::Answer;
use crate::accounts::asked::Accounts;
use crate::accounts::{streamed, told, Ended, Streamed};
use crate::files::name_of;
use crate::output::Outputs;
use crate::problem::Problem;
use crate::run::decisions::{decisions, Decision};
use crate::run::{page, Ready};
use crate::settings_file::SettingsFile;

pub fn answer(asked: &Accounts) -> Answer {
    answered(asked).unwrap_or_else(Answer::from)
}

fn answered(asked: &Accounts) -> Result<Answer, Problem> {
    let streamed = streamed(asked)?;
    if let Some(folder) = &asked.reports {
        std::fs::create_dir_all(folder).map_err(|error| Problem::io(name_of(folder), "made", &error))?;
        let beside = asked.files.iter().map(|file| SettingsFile::beside(file));
        let mut outputs = Outputs::of(asked.files.iter().cloned().chain(beside).chain([asked.bars.clone()]));
        for ((path, ended), file) in streamed.reports(folder).iter().zip(&streamed.accounts).zip(&asked.files) {
            outputs.add(path, page::page(&ended.outcome, &decided(asked, file, ended)?));
        }
        outputs.write()?;
    }
    let mut answer = Answer { document: asked.json, ..Answer::default() };
    said(&streamed, &mut answer);
    match asked.json {
        true => answer.rest = Some(Box::new(move |out| told::json(&streamed, out))),
        false => answer.text = told::text(&streamed),
    }
    Ok(answer)
}

/// Why an account's orders were made: those of its run alone, which the account is equal to where nothing stopped it. Bars from standard
/// input are gone by now.
fn decided(asked: &Accounts, file: &Path, ended: &Ended) -> Result<Vec<Decision>, Problem> {
    if ended.stopped.is_some() || asked.bars == Path::new("-") {
        return Ok(Vec::new());
    }
    let over = asked.how.over(file.to_owned(), asked.bars.clone());
    decisions(&Ready::of(&over)?, over.on_refusal)
}

/// What the accounts' files have to say, what the stream refused, and which accounts it stopped.
fn said(streamed: &Streamed, answer: &mut Answer) {
    for ended in &streamed.accounts {
        answer.doubts(&ended.outcome.file, &ended.outcome.doubts);
        answer.notes(&ended.outcome.file, &ended.outcome.notes);
    }
    if let Some(first) = streamed.accounts.first() {
        answer.doubts(&first.outcome.bars_file, &first.outcome.odd);
        answer.problems.extend(first.outcome.refusals.told.iter().take(20).cloned());
    }
    for (number, ended) in streamed.accounts.iter().enumerate() {
        if let Some(stopped) = &ended.stopped {
            let place = format!("account {}, bar {}", number + 1, stopped.bar);
            answer.problems.push(Problem { place, ..Problem::refused(&ended.outcome.file, stopped.refusal) });
        }
    }
}
