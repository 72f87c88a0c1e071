//! Why each order of a run was made: the chain of the rule that made it, at the bar that it was made at.

use std::collections::VecDeque;

use yshturpa::{Order, Tree};

use super::Ready;
use crate::bars::{one_by_one, OnRefusal};
use crate::problem::Problem;
use crate::why::chain::chain;
use crate::why::words::Telling;

/// An order, the bar that it was made at, and the chain with how far each line is to be set in.
pub struct Decision {
    pub bar: u64,
    pub time: i64,
    pub order: Order,
    pub lines: Vec<(usize, String)>,
}

/// As many as are kept of the first, and of the last.
const KEPT: usize = 4000;

/// The orders of a run one after another; of very many the first and the last.
pub fn decisions(ready: &Ready, on_refusal: OnRefusal) -> Result<Vec<Decision>, Problem> {
    let (source, depth) = (&ready.source, ready.settings.depth);
    let (mut first, mut last) = (Vec::new(), VecDeque::new());
    let mut engine = ready.engine.clone();
    one_by_one(&ready.bars, &mut engine, on_refusal, |rows, kept, done| {
        for (n, bar) in done.iter().enumerate() {
            let Some(order) = bar.ordered else { continue };
            let tree = match order {
                Order::Long => Tree::Entry,
                Order::Short => Tree::ShortEntry,
                Order::Exit if bar.position.qty > 0.0 => Tree::Exit,
                Order::Exit => Tree::ShortExit,
            };
            let rows = rows.upto(kept + n + 1, depth);
            let links = chain(&source.table, &source.forest, tree, &rows, &bar.position)
                .map_err(|error| Problem::input(&source.file, "", error.to_string()))?;
            let telling =
                Telling { forest: &source.forest, names: &source.names, position: &bar.position, bars: bar.number + 1 };
            let lines = links.iter().map(|link| (link.level, telling.line(&link.line))).collect();
            let decision = Decision { bar: bar.number, time: bar.time, order, lines };
            if first.len() < KEPT {
                first.push(decision);
                continue;
            }
            last.push_back(decision);
            if last.len() > KEPT {
                last.pop_front();
            }
        }
        Ok(true)
    })?;
    first.extend(last);
    Ok(first)
}

/// The decision to enter of a trade whose entry filled at a bar, the one before it having been left at another; none where it is not kept.
pub fn of_entry(decisions: &[Decision], since: usize, filled: usize) -> Option<&Decision> {
    last_of(decisions, since, filled, |order| order != Order::Exit)
}

/// The decision to leave of a trade, likewise.
pub fn of_exit(decisions: &[Decision], entered: usize, filled: usize) -> Option<&Decision> {
    last_of(decisions, entered, filled, |order| order == Order::Exit)
}

/// The last decision of a kind from one bar on and before another.
fn last_of(decisions: &[Decision], from: usize, before: usize, which: fn(Order) -> bool) -> Option<&Decision> {
    let end = decisions.partition_point(|decision| decision.bar < before as u64);
    decisions[..end]
        .iter()
        .rev()
        .take_while(|decision| decision.bar >= from as u64)
        .find(|decision| which(decision.order))
}
