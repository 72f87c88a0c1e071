//! `ysh show`: a table or a strategy as readable rules, a node a line.

use yshturpa::{EntryOrder, Refusal, Tree};

use super::Answer;
use crate::cli::Show;
use crate::columns::{columns, counted, grouped, Side};
use crate::commands::depth::why;
use crate::compile::entry_order_of;
use crate::decompile;
use crate::problem::Problem;
use crate::source::Source;
use crate::table::{deepest, reach_of, reads, Words};

pub fn answer(asked: &Show) -> Answer {
    let shown = |source: Source| if asked.json { document(&source) } else { rules(&source) };
    Source::read(&asked.file, &asked.reading).and_then(shown).unwrap_or_else(Answer::from)
}

fn rules(source: &Source) -> Result<Answer, Problem> {
    let mut answer = Answer::default();
    answer.notes(&source.file, &source.notes);
    answer.doubts(&source.file, &source.doubts);
    let refused = |refusal| source.refused(refusal);
    head(source, &mut answer)?;
    let forest = &source.forest;
    let reaches = (0..forest.nodes.len()).map(|node| reach_of(forest, node)).collect::<Result<Vec<_>, _>>();
    let reaches = reaches.map_err(refused)?;
    trees(source, &reaches, &mut answer).map_err(refused)?;
    read_back(source, &reaches, &mut answer);
    Ok(answer)
}

fn head(source: &Source, answer: &mut Answer) -> Result<(), Problem> {
    let size = source.size()?;
    let slots = counted(size.slots, "slot", "slots");
    let nodes = counted(source.forest.nodes.len() as u64, "node", "nodes");
    let window = counted(size.rows, "row", "rows");
    let bytes = grouped(size.window);
    answer.line(format!("{}: {nodes}, {slots}, a window of {window}, {bytes} bytes", source.file));
    let why = why(source).map_err(|refusal| source.refused(refusal))?;
    answer.line(format!("deepest  {why}"));
    if let Some(line) = entries(source) {
        answer.line(format!("entries  {line}"));
    }
    answer.line("*        marks the way to what reaches deepest in its tree");
    Ok(())
}

/// When an entry fills, what a limit's pays, and what a quantity is a whole number of; none for a table without settings.
fn entries(source: &Source) -> Option<String> {
    let (order, maker_bps, lot) = match (&source.strategy, &source.settings) {
        (Some(strategy), _) => (entry_order_of(&strategy.execution), strategy.costs.maker_bps, 0.0),
        (None, Some(settings)) => (settings.entry_order, settings.maker_bps, settings.lot),
        (None, None) => return None,
    };
    let said = match order {
        EntryOrder::Market => "market orders".to_owned(),
        EntryOrder::Limit { level_pct } => format!("limit orders {}, maker fee {maker_bps} bps", beside(level_pct)),
        EntryOrder::Stop { level_pct } => format!("stop orders {}", beside(level_pct)),
        EntryOrder::StopLimit { stop_pct, limit_pct } => {
            format!("stop-limit orders, the stop {}, the limit {}", beside(stop_pct), beside(limit_pct))
        }
    };
    Some(if lot == 0.0 { said } else { format!("{said}; whole lots of {lot}") })
}

/// Where a level stands.
fn beside(pct: f64) -> String {
    match pct {
        0.0 => "at the deciding close".to_owned(),
        _ => format!("{}% {} the deciding close", pct.abs(), if pct > 0.0 { "over" } else { "under" }),
    }
}

/// Each tree: its nodes with their numbers and reaches, the way to what reaches deepest marked with a star.
fn trees(source: &Source, reaches: &[u64], answer: &mut Answer) -> Result<(), Refusal> {
    let forest = &source.forest;
    let words = Words { forest, names: &source.names };
    for (way, &(tree, root)) in deepest(forest)?.iter().zip(&forest.roots) {
        let rows = counted(way.reach + 1, "row", "rows");
        answer.line(format!("\n{}: reaches {} back, needs {rows}", tree.name(), counted(way.reach, "bar", "bars")));
        let mut lines = Vec::new();
        let end = forest.end(root);
        for (node, reach) in (root..end).zip(&reaches[root..end]) {
            let star = if way.reach > 0 && way.path.contains(&node) { "*" } else { "" };
            let indent = "  ".repeat(forest.path(node).len() - 1);
            let said = if forest.nodes[node].is_test() { words.whole(node) } else { String::new() };
            let label = format!("{indent}{}", words.label(node));
            lines.push(vec![star.to_owned(), node.to_string(), grouped(*reach), label, said]);
        }
        let heads = [("", Side::Left), ("node", Side::Right), ("reach", Side::Right), ("rule", Side::Left)];
        columns(&[&heads[..], &[("in words", Side::Left)]].concat(), &lines).iter().for_each(|line| answer.line(line));
    }
    for tree in Tree::ALL.into_iter().filter(|tree| forest.roots.iter().all(|(there, _)| there != tree)) {
        answer.line(format!("\n{}: absent, and never yes", tree.name()));
    }
    Ok(())
}

/// How far back each price and each slot is read.
fn read_back(source: &Source, reaches: &[u64], answer: &mut Answer) {
    let forest = &source.forest;
    let words = Words { forest, names: &source.names };
    let (prices, slots) = reads(forest, reaches);
    let mut lines = Vec::new();
    for (selector, read) in prices {
        lines.push(vec![
            Words::price(selector).to_owned(),
            "price".to_owned(),
            grouped(read.back),
            read.node.to_string(),
        ]);
    }
    for slot in 0..forest.slots as u32 {
        let (back, node) = match slots.get(&slot) {
            Some(read) => (grouped(read.back), read.node.to_string()),
            None => ("never read".to_owned(), String::new()),
        };
        lines.push(vec![words.slot(slot), format!("slot {slot}"), back, node]);
    }
    if !lines.is_empty() {
        answer.line("");
        let heads = [("read", Side::Left), ("", Side::Left), ("bars back", Side::Right), ("by node", Side::Right)];
        columns(&heads, &lines).iter().for_each(|line| answer.line(line));
    }
}

/// The rules as a strategy document. A strategy keeps all else that it says, and a table has it from the settings beside it.
fn document(source: &Source) -> Result<Answer, Problem> {
    let mut answer = Answer { document: true, ..Answer::default() };
    answer.doubts(&source.file, &source.doubts);
    let strategy = source.strategy.clone().unwrap_or_else(|| decompile::strategy(source));
    if source.strategy.is_none() && strategy.short_entry.is_some() && strategy.short_exit.is_none() {
        let note = "the table has no short exit: compile this with --absent-short-exit to have the same table again";
        answer.notes(&source.file, &[note.to_owned()]);
    }
    if let Some(lot) = source.settings.as_ref().map(|settings| settings.lot).filter(|lot| *lot != 0.0) {
        let note = format!("a strategy says no lot: compile this with --lot {lot} to have the same settings again");
        answer.notes(&source.file, &[note]);
    }
    answer.line(serde_json::to_string_pretty(&strategy).expect("a strategy is JSON"));
    Ok(answer)
}
