//! `ysh blocked`: which tests kept a rule from a yes over a stretch of bars.

use super::Answer;
use crate::blocked::asked::Blocked as Asked;
use crate::blocked::page::{page, Strip};
use crate::blocked::text::{text, Told};
use crate::blocked::{json, Blocked};
use crate::output::Outputs;
use crate::problem::Problem;
use crate::run::Ready;
use crate::why::place::Bounds;

pub fn answer(asked: &Asked) -> Answer {
    answered(asked).unwrap_or_else(Answer::from)
}

fn answered(asked: &Asked) -> Result<Answer, Problem> {
    let by_time = asked.from.is_some() || asked.to.is_some();
    let ready = if by_time { Ready::kept(&asked.over)? } else { Ready::of(&asked.over)? };
    let notes = ready.notes();
    let bounds = Bounds::of(asked.from, asked.to, &ready.bars)?;
    let mut strip = asked.html.as_ref().and_then(|_| Strip::of(&ready.source, asked.tree.tree()));
    let (blocked, shape) = Blocked::of(&ready, asked.tree.tree(), bounds, asked.over.on_refusal, |at, said| {
        if let Some(strip) = &mut strip {
            strip.add(at, said);
        }
    })?;
    let odd = ready.odd()?;
    let told = Told { blocked: &blocked, shape: &shape, source: &ready.source, bars_file: &ready.bars.name };
    if let (Some(path), Some(strip)) = (&asked.html, &strip) {
        let mut outputs = Outputs::of(asked.over.read());
        outputs.add(path, page(&told, strip));
        outputs.write()?;
    }
    let text = if asked.json { json::json(&told, &odd, &notes) } else { text(&told) };
    let mut answer = Answer { text, document: asked.json, ..Answer::default() };
    answer.doubts(&ready.source.file, &ready.source.doubts);
    answer.doubts(&ready.bars.name, &odd);
    answer.notes(&ready.source.file, &notes);
    super::run::refused(&mut answer, &ready.bars.name, &blocked.refusals);
    Ok(answer)
}
