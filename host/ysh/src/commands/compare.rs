//! `ysh compare`: two runs side by side.

use super::Answer;
use crate::compare::asked::{Compare, Libraries};
use crate::compare::{json, libraries, page, text, Compared, Side};
use crate::output::Outputs;
use crate::problem::Problem;

pub fn answer(asked: &Compare) -> Answer {
    answered(asked).unwrap_or_else(Answer::from)
}

fn answered(asked: &Compare) -> Result<Answer, Problem> {
    let Libraries { lib_a, lib_b } = &asked.libraries;
    let sides = match (lib_a, lib_b) {
        (None, None) => [Side::read(&asked.first)?, Side::read(&asked.second)?],
        _ => {
            let over = asked.how.over(asked.first.clone(), asked.second.clone());
            [libraries::side(lib_a.as_deref(), &over)?, libraries::side(lib_b.as_deref(), &over)?]
        }
    };
    let compared = Compared::of(sides)?;
    if let Some(path) = &asked.wanted.html {
        let inputs = [&asked.first, &asked.second].into_iter().chain(lib_a).chain(lib_b);
        let mut outputs = Outputs::of(inputs);
        outputs.add(path, page::page(&compared));
        outputs.write()?;
    }
    let text = if asked.wanted.json { json::json(&compared) } else { text::text(&compared) };
    Ok(Answer { text, document: asked.wanted.json, differs: !compared.same(), ..Answer::default() })
}
