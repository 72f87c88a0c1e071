//! `ysh trials`: every strategy over every file of bars; and `ysh totals join`, which makes one answer of its parts.

use super::Answer;
use crate::columns::counted;
use crate::files::name_of;
use crate::output::Outputs;
use crate::problem::Problem;
use crate::trials::asked::{Join, Totals, Trials, Wanted, Which};
use crate::trials::document::Document;
use crate::trials::{csv, done, join, page, text, Journal, Work};

/// As many refused runs, and as many doubts, as are told one by one.
const TOLD: usize = 20;

pub fn answer(asked: &Trials) -> Answer {
    answered(asked).unwrap_or_else(Answer::from)
}

fn answered(asked: &Trials) -> Result<Answer, Problem> {
    let work = Work::of(asked)?;
    let journal = asked.resume.as_ref().map(|path| Journal::open(path, &work.inputs)).transpose()?;
    let document = done(&work, asked.part, asked.threads, journal)?;
    let mut answer = written(&document, &asked.wanted, Outputs::of(work.read().chain(asked.resume.clone())))?;
    answer.notes.extend(work.left_out);
    Ok(answer)
}

pub fn totals(asked: &Totals) -> Answer {
    let Which::Join(asked) = &asked.which;
    joined(asked).unwrap_or_else(Answer::from)
}

fn joined(asked: &Join) -> Result<Answer, Problem> {
    let read = |path: &std::path::PathBuf| Ok((name_of(path), Document::read(path)?));
    let document = join::joined(asked.files.iter().map(read).collect::<Result<_, Problem>>()?)?;
    let missing = document.parts.missing();
    if !missing.is_empty() && !asked.partial {
        let text = format!("part {} of {} is not there; --partial joins those that are", missing[0], document.parts.of);
        return Err(Problem::input("ysh totals join", "", text));
    }
    written(&document, &asked.wanted, Outputs::of(&asked.files))
}

/// The files that are wanted of the runs, and the answer.
fn written(document: &Document, wanted: &Wanted, mut outputs: Outputs) -> Result<Answer, Problem> {
    if let Some(path) = &wanted.totals {
        outputs.add(path, document.json());
    }
    if let Some(path) = &wanted.csv {
        outputs.add(path, csv(document));
    }
    if let Some(path) = &wanted.html {
        outputs.add(path, page::page(document));
    }
    outputs.write()?;
    let text = if wanted.json { document.json() } else { text::text(document) };
    let mut answer = Answer { text, document: wanted.json, ..Answer::default() };
    let doubts = document.doubts();
    answer.doubts.extend(doubts.iter().take(TOLD).map(|doubt| format!("WARNING  {doubt}")));
    if doubts.len() > TOLD {
        let more = counted((doubts.len() - TOLD) as u64, "more is", "more are");
        answer.doubts.push(format!("WARNING  {more} told by --json"));
    }
    let refused = document.runs.iter().filter_map(|row| row.refused());
    let mut problems: Vec<Problem> = refused.map(|refused| refused.problem()).collect();
    if problems.len() > TOLD {
        let more = counted((problems.len() - TOLD) as u64, "run more was", "runs more were");
        answer.notes.push(format!("{more} refused"));
        // The highest status decides, told or not.
        problems.sort_by_key(|problem| std::cmp::Reverse(problem.status()));
        problems.truncate(TOLD);
    }
    answer.problems = problems;
    Ok(answer)
}
