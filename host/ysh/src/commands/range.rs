//! `ysh range`: the high and the low of stretches of closes.

use std::time::Instant;

use super::Answer;
use crate::columns::counted;
use crate::problem::Problem;
use crate::range::asked::Range;
use crate::range::{questions, told, Series};

pub fn answer(asked: &Range) -> Answer {
    answered(asked).unwrap_or_else(Answer::from)
}

fn answered(asked: &Range) -> Result<Answer, Problem> {
    let questions = questions(asked)?;
    let series = Series::read(&asked.bars, &asked.form)?;
    let began = Instant::now();
    let found = series.answers(&questions)?;
    let took = began.elapsed();
    let text = match asked.json {
        true => told::json(&series, &found),
        false => told::text(&series, &found, asked.repeat.is_none()),
    };
    let mut answer = Answer { text, document: asked.json, ..Answer::default() };
    if asked.repeat.is_some() && !found.is_empty() {
        let each = took.as_secs_f64() * 1e6 / found.len() as f64;
        let count = counted(found.len() as u64, "stretch", "stretches");
        answer.notes.push(format!("{count} in {:.3} ms, {each:.3} µs each", took.as_secs_f64() * 1e3));
    }
    Ok(answer)
}
