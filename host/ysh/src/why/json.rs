//! Why a rule said what it said, for programs.

use serde::Serialize;
use yshturpa::{By, Tree};

use super::chain::{Chains, Link};
use super::moment::{is_flat, Asked, Moment};
use super::words::Telling;
use crate::run::json::Exact;
use crate::show::Clock;

#[derive(Serialize)]
struct Document<'a> {
    file: &'a str,
    bars_file: &'a str,
    /// What is to be said of the bars that were found.
    said: Option<&'a str>,
    bars: Vec<BarJson>,
    doubts: &'a [String],
    notes: &'a [String],
}

#[derive(Serialize)]
pub struct BarJson {
    bar: u64,
    time: i64,
    time_text: String,
    position: PositionJson,
    /// What the engine asked, or why it asked nothing.
    asked: Vec<&'static str>,
    not_asked: Option<String>,
    rules: Vec<RuleJson>,
}

#[derive(Serialize)]
struct PositionJson {
    side: &'static str,
    qty: Exact,
    entry_bar: Option<u64>,
}

#[derive(Serialize)]
struct RuleJson {
    tree: &'static str,
    /// None where the rule is absent, which is never yes.
    answer: Option<bool>,
    chain: Vec<LinkJson>,
}

#[derive(Serialize)]
struct LinkJson {
    level: usize,
    node: usize,
    answer: bool,
    /// `below`, `values`, `missing`, `first_bar`, `too_few_bars`, `position`, `since_entry` or `no_entry`.
    by: &'static str,
    values: Vec<Exact>,
    missing_node: Option<usize>,
    bars_back: Option<u64>,
    bars_since_entry: Option<u64>,
    text: String,
}

/// The moments of one time, with the chains of the rules that are shown.
pub fn json(moments: &[(Moment, Chains)], said: Option<&str>, bars_file: &str, notes: &[String]) -> String {
    let source = &moments[0].0.source;
    let document = Document {
        file: &source.file,
        bars_file,
        said,
        bars: moments.iter().map(|(moment, chains)| bar(moment, chains)).collect(),
        doubts: &source.doubts,
        notes,
    };
    serde_json::to_string(&document).expect("an answer is JSON") + "\n"
}

fn bar(moment: &Moment, chains: &[(Tree, Vec<Link>)]) -> BarJson {
    let position = &moment.position;
    let side = match (is_flat(position), position.qty > 0.0) {
        (true, _) => "none",
        (false, true) => "long",
        (false, false) => "short",
    };
    let (asked, not_asked) = match &moment.asked {
        Asked::Trees(trees) => (trees.iter().map(|tree| tree.name()).collect(), None),
        other => (Vec::new(), Some(other.words())),
    };
    let telling = moment.telling();
    BarJson {
        bar: moment.number,
        time: moment.bar.time,
        time_text: Clock::of(moment.bar.time, moment.bar.time).text(moment.bar.time),
        position: PositionJson { side, qty: Exact(position.qty.abs()), entry_bar: position.entry_bar },
        asked,
        not_asked,
        rules: chains.iter().map(|(tree, links)| rule(*tree, links, &telling)).collect(),
    }
}

fn rule(tree: Tree, links: &[Link], telling: &Telling) -> RuleJson {
    RuleJson {
        tree: tree.name(),
        answer: links.first().map(|link| link.line.answer),
        chain: links.iter().map(|link| one(link, telling)).collect(),
    }
}

fn one(link: &Link, telling: &Telling) -> LinkJson {
    let line = &link.line;
    let (mut values, mut missing, mut back, mut since) = (Vec::new(), None, None, None);
    let by = match line.by {
        By::Below => "below",
        By::Values(all, count) => {
            values = all[..count].iter().copied().map(Exact).collect();
            "values"
        }
        By::Missing { leaf, back: bars } => {
            (missing, back) = (Some(leaf), Some(bars));
            "missing"
        }
        By::FirstBar => "first_bar",
        By::TooFewBars => "too_few_bars",
        By::Position => "position",
        By::Since(bars) => {
            since = Some(bars);
            "since_entry"
        }
        By::NoEntry => "no_entry",
    };
    LinkJson {
        level: link.level,
        node: line.node,
        answer: line.answer,
        by,
        values,
        missing_node: missing,
        bars_back: back,
        bars_since_entry: since,
        text: telling.line(line),
    }
}
