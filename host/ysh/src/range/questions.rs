//! The stretches that are asked about.

use std::path::Path;

use csv::ReaderBuilder;

use super::asked::Range;
use crate::files::name_of;
use crate::problem::Problem;
use crate::why::place::{parse_place, Place};

/// A stretch: from its first bar to its last; an end that is left out is that of the bars.
#[derive(Clone, Copy, Debug, Default, PartialEq, Eq)]
pub struct Question {
    pub from: Option<Place>,
    pub to: Option<Place>,
}

pub fn questions(asked: &Range) -> Result<Vec<Question>, Problem> {
    match &asked.repeat {
        Some(path) => listed(path),
        None => Ok(vec![Question { from: asked.from, to: asked.to }]),
    }
}

fn listed(path: &Path) -> Result<Vec<Question>, Problem> {
    let name = name_of(path);
    let wrong = |place: String, text: String| Problem::input(&name, place, text);
    let mut reader = ReaderBuilder::new().has_headers(true).from_path(path).map_err(|error| {
        wrong(String::new(), format!("cannot be read: {error}; a file of stretches (CSV) was expected"))
    })?;
    let heads = reader.headers().map_err(|error| wrong("line 1".to_owned(), error.to_string()))?.clone();
    let column = |head: &str| {
        let found = heads.iter().position(|there| there.trim() == head);
        found.ok_or_else(|| wrong("line 1".to_owned(), format!("no column is called {head:?}, and one was expected")))
    };
    let (from, to) = (column("from")?, column("to")?);
    let mut questions = Vec::new();
    for record in reader.records() {
        let record = record.map_err(|error| wrong(String::new(), error.to_string()))?;
        let line = record.position().map_or(0, csv::Position::line);
        let place = |column: usize, head: &str| match record.get(column).unwrap_or("").trim() {
            "" => Ok(None),
            cell => parse_place(cell).map(Some).map_err(|text| {
                wrong(format!("line {line}, column {} ({head})", column + 1), format!("{cell:?}: {text}"))
            }),
        };
        questions.push(Question { from: place(from, "from")?, to: place(to, "to")? });
    }
    Ok(questions)
}
