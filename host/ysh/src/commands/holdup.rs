//! `ysh holdup`: the question.

use std::ffi::OsString;

use super::Answer;
use crate::holdup::asked::{Holdup, Wanted};
use crate::holdup::reading::report;
use crate::holdup::report::Report;
use crate::holdup::sheet::Sheet;
use crate::holdup::{chart, json, page, text};
use crate::output::Outputs;
use crate::problem::Problem;
use crate::settings_file::SettingsFile;

pub fn answer(asked: &Holdup, arguments: &[OsString]) -> Answer {
    answered(asked, arguments).unwrap_or_else(Answer::from)
}

/// The page and the picture, where they are asked for: both or neither.
fn write(report: &Report, wanted: &Wanted) -> Result<(), Problem> {
    let clients = report.clients.iter().map(|client| client.path.clone());
    let mut outputs = Outputs::of(clients.flat_map(|path| [SettingsFile::beside(&path), path]));
    if let Some(path) = &wanted.html {
        outputs.add(path, page::page(report));
    }
    if let Some((path, chart)) = wanted.svg.as_ref().zip(chart::chart(report)) {
        outputs.add(path, chart.file());
    }
    outputs.write()
}

fn answered(asked: &Holdup, arguments: &[OsString]) -> Result<Answer, Problem> {
    let report = report(asked, Sheet::of(arguments))?;
    write(&report, &asked.wanted)?;
    let text = if asked.wanted.json { json::json(&report) } else { text::text(&report) };
    let unfit = !report.short_boxes().is_empty();
    let mut answer = Answer { text, document: asked.wanted.json, unfit, ..Answer::default() };
    for client in &report.clients {
        answer.doubts(&client.file, &client.doubts);
        answer.notes(&client.file, &client.notes);
    }
    if asked.wanted.json {
        answer.notes.extend(report.left_out);
    }
    answer.problems = report.problems;
    Ok(answer)
}
