//! What kept a rule from a yes, for programs.

use std::collections::BTreeMap;

use serde::Serialize;

use super::shape::Sort;
use super::tally::Stamp;
use super::text::Told;
use super::watch::Why;

#[derive(Serialize)]
struct Document<'a> {
    file: &'a str,
    bars_file: &'a str,
    tree: &'static str,
    bars: u64,
    first: Option<StampJson>,
    last: Option<StampJson>,
    asked: u64,
    yes: u64,
    no: u64,
    not_asked: BTreeMap<&'static str, u64>,
    /// Every All, Any, Not and test of the rule, in the table's order.
    nodes: Vec<NodeJson>,
    one_test_away: u64,
    /// The first of them.
    one_test_away_bars: Vec<MissedJson>,
    refused_bars: u64,
    doubts: &'a [String],
    bars_doubts: &'a [String],
    notes: &'a [String],
}

#[derive(Serialize)]
struct StampJson {
    bar: u64,
    time: i64,
}

#[derive(Serialize)]
struct NodeJson {
    node: usize,
    parent: Option<usize>,
    /// `all`, `any`, `not` or `test`.
    sort: &'static str,
    text: String,
    yes: u64,
    no: u64,
    missing: u64,
    decided: u64,
    alone: u64,
    longest: u64,
    first: Option<StampJson>,
    last: Option<StampJson>,
}

#[derive(Serialize)]
struct MissedJson {
    bar: u64,
    time: i64,
    nodes: Vec<usize>,
    text: Vec<String>,
}

fn stamp(at: Option<Stamp>) -> Option<StampJson> {
    at.map(|Stamp { bar, time }| StampJson { bar, time })
}

/// What a reason is called in files.
fn name(why: Why) -> &'static str {
    match why {
        Why::Warmup => "warmup",
        Why::Order => "order",
        Why::Position => "position",
        Why::Entry => "entry",
    }
}

pub fn json(told: &Told, odd: &[String], notes: &[String]) -> String {
    let (blocked, shape) = (told.blocked, told.shape);
    let node = |part: usize| {
        let (it, count) = (&shape.parts[part], &blocked.tally.parts[part]);
        NodeJson {
            node: it.node,
            parent: it.above.map(|above| shape.parts[above].node),
            sort: match it.sort {
                Sort::Test(_) => "test",
                Sort::All => "all",
                Sort::Any => "any",
                Sort::Not => "not",
            },
            text: told.part(part),
            yes: count.yes,
            no: count.no,
            missing: count.missing,
            decided: count.decided,
            alone: count.turning,
            longest: count.longest,
            first: stamp(count.first),
            last: stamp(count.last),
        }
    };
    let missed = blocked.missed.iter().map(|missed| MissedJson {
        bar: missed.at.bar,
        time: missed.at.time,
        nodes: missed.tests.iter().map(|&test| shape.parts[shape.tests[test]].node).collect(),
        text: told.missed(missed),
    });
    let document = Document {
        file: &told.source.file,
        bars_file: told.bars_file,
        tree: blocked.tree.name(),
        bars: blocked.bars,
        first: stamp(blocked.first),
        last: stamp(blocked.last),
        asked: blocked.asked,
        yes: blocked.yes,
        no: blocked.asked - blocked.yes,
        not_asked: Why::ALL.into_iter().map(|why| (name(why), blocked.not_asked[why as usize])).collect(),
        nodes: (0..shape.parts.len()).map(node).collect(),
        one_test_away: blocked.missed_count,
        one_test_away_bars: missed.collect(),
        refused_bars: blocked.refusals.count,
        doubts: &told.source.doubts,
        bars_doubts: odd,
        notes,
    };
    serde_json::to_string(&document).expect("an answer is JSON") + "\n"
}
