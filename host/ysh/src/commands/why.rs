//! `ysh why`: why a rule said what it said at a bar.

use super::Answer;
use crate::output::Outputs;
use crate::problem::Problem;
use crate::run::Ready;
use crate::show::{rounded, Clock};
use crate::why::asked::Why;
use crate::why::chain::{chain, Chains, Link};
use crate::why::moment::{is_flat, Asked, Moment};
use crate::why::place::find;
use crate::why::words::yes;
use crate::why::{json, page};

pub fn answer(asked: &Why) -> Answer {
    answered(asked).unwrap_or_else(Answer::from)
}

type Shown = (Moment, Chains);

fn answered(asked: &Why) -> Result<Answer, Problem> {
    let ready = Ready::kept(&asked.over)?;
    let notes = ready.notes();
    let found = find(asked.at, &ready.bars)?;
    let mut moments: Vec<Shown> = Vec::new();
    for at in found.at {
        let moment = Moment::of(&ready, asked.over.on_refusal, at)?;
        let chains = chains(asked, &moment)?;
        moments.push((moment, chains));
    }
    let heads: Vec<Vec<String>> = moments.iter().map(|(moment, _)| head(moment, found.said.as_deref())).collect();
    if let Some(path) = &asked.html {
        let mut outputs = Outputs::of(asked.over.read());
        outputs.add(path, page::page(&moments, &heads));
        outputs.write()?;
    }
    let odd = ready.odd()?;
    let mut answer = Answer { document: asked.json, ..Answer::default() };
    match asked.json {
        true => answer.text = json::json(&moments, found.said.as_deref(), &ready.bars.name, &notes),
        false => moments.iter().zip(&heads).enumerate().for_each(|(n, (shown, head))| {
            if n > 0 {
                answer.line("");
            }
            told(&mut answer, shown, head);
        }),
    }
    answer.doubts(&ready.source.file, &ready.source.doubts);
    answer.doubts(&ready.bars.name, &odd);
    answer.notes(&ready.source.file, &notes);
    Ok(answer)
}

/// The rule that is asked about, or those that the engine asked, each with its chain.
fn chains(asked: &Why, moment: &Moment) -> Result<Chains, Problem> {
    let trees = match (&asked.tree, &moment.asked) {
        (Some(name), _) => vec![name.tree()],
        (None, Asked::Trees(trees)) => trees.clone(),
        (None, _) => Vec::new(),
    };
    let one = |tree| {
        let source = &moment.source;
        let links = chain(&source.table, &source.forest, tree, &moment.rows, &moment.position);
        links.map(|links| (tree, links)).map_err(|error| Problem::input(&source.file, "", error.to_string()))
    };
    trees.into_iter().map(one).collect()
}

/// Which bar it is, what is held there, and what the engine asked.
fn head(moment: &Moment, said: Option<&str>) -> Vec<String> {
    let clock = Clock::of(moment.bar.time, moment.bar.time);
    let position = &moment.position;
    let held = match (is_flat(position), position.entry_bar) {
        (true, _) => "none".to_owned(),
        (false, entry) => {
            let side = if position.qty > 0.0 { "long" } else { "short" };
            let since = entry.map_or(String::new(), |bar| format!(", entered at bar {bar}"));
            format!("{side} {}{since}", rounded(position.qty.abs()))
        }
    };
    let mut head = vec![format!("{} at bar {}, {}", moment.source.file, moment.number, clock.text(moment.bar.time))];
    head.extend(said.map(|said| format!("time      {said}")));
    head.extend([format!("position  {held}"), format!("asked     {}", moment.asked.words())]);
    head
}

fn told(answer: &mut Answer, (moment, chains): &Shown, head: &[String]) {
    head.iter().for_each(|line| answer.line(line));
    let telling = moment.telling();
    for (tree, links) in chains {
        let Some(first) = links.first() else {
            answer.line(format!("\n{}: absent, and never yes", tree.name()));
            continue;
        };
        answer.line(format!("\n{} says {}", tree.name(), yes(first.line.answer)));
        for Link { level, line } in links {
            answer.line(format!("{}#{} {}", "  ".repeat(level + 1), line.node, telling.line(line)));
        }
    }
}
