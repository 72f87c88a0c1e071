//! What was found, as text and for programs.

use serde::Serialize;

use super::series::{Found, Series};
use crate::columns::{columns, counted, grouped, Side};
use crate::run::json::Exact;
use crate::show::Clock;
use crate::table::number;

pub fn text(series: &Series, found: &[Found], one: bool) -> String {
    let clock = series.clock();
    let mut lines = vec![format!("bars     {} of {}", counted(series.len(), "close", "closes"), series.name)];
    match found {
        [found] if one => lines.extend(of_one(series, found, clock)),
        found => {
            lines.push(String::new());
            lines.extend(table(series, found, clock));
            let most = |of: fn(&Found) -> u64| grouped(found.iter().map(of).max().unwrap_or(0));
            let (closes, blocks) = (most(|found| found.closes_read), most(|found| found.blocks_read));
            let count = counted(found.len() as u64, "stretch", "stretches");
            lines.push(String::new());
            lines.push(format!("read     {count}; of one at most {closes} closes and {blocks} blocks of 64 closes"));
        }
    }
    lines.join("\n") + "\n"
}

fn of_one(series: &Series, found: &Found, clock: Clock) -> [String; 4] {
    let bar = |bar: u64| format!("bar {}, {}", grouped(bar), clock.text(series.time(bar)));
    let Found { first, last, stretch, closes_read, blocks_read } = found;
    let bars = counted(last + 1 - first, "bar", "bars");
    let closes = counted(*closes_read, "close", "closes");
    let blocks = counted(*blocks_read, "block", "blocks");
    [
        format!("stretch  {bars}: {} to {}", bar(*first), bar(*last)),
        format!("high     {} at {}", number(stretch.high), bar(stretch.high_bar)),
        format!("low      {} at {}", number(stretch.low), bar(stretch.low_bar)),
        format!("read     {closes} and {blocks} of 64 closes"),
    ]
}

fn table(series: &Series, found: &[Found], clock: Clock) -> Vec<String> {
    let heads = [
        ("from", Side::Right),
        ("to", Side::Right),
        ("high", Side::Right),
        ("at bar", Side::Right),
        ("time", Side::Left),
        ("low", Side::Right),
        ("at bar", Side::Right),
        ("time", Side::Left),
        ("closes read", Side::Right),
        ("blocks", Side::Right),
    ];
    let row = |found: &Found| {
        let Found { first, last, stretch, closes_read, blocks_read } = found;
        let time = |bar: u64| clock.text(series.time(bar));
        vec![
            grouped(*first),
            grouped(*last),
            number(stretch.high),
            grouped(stretch.high_bar),
            time(stretch.high_bar),
            number(stretch.low),
            grouped(stretch.low_bar),
            time(stretch.low_bar),
            grouped(*closes_read),
            grouped(*blocks_read),
        ]
    };
    columns(&heads, &found.iter().map(row).collect::<Vec<_>>())
}

#[derive(Serialize)]
struct Document<'a> {
    bars_file: &'a str,
    bars: u64,
    stretches: Vec<Answer>,
}

#[derive(Serialize)]
struct Answer {
    from: u64,
    to: u64,
    high: Exact,
    high_bar: u64,
    high_time: i64,
    low: Exact,
    low_bar: u64,
    low_time: i64,
    closes_read: u64,
    blocks_read: u64,
}

pub fn json(series: &Series, found: &[Found]) -> String {
    let answer = |found: &Found| Answer {
        from: found.first,
        to: found.last,
        high: Exact(found.stretch.high),
        high_bar: found.stretch.high_bar,
        high_time: series.time(found.stretch.high_bar),
        low: Exact(found.stretch.low),
        low_bar: found.stretch.low_bar,
        low_time: series.time(found.stretch.low_bar),
        closes_read: found.closes_read,
        blocks_read: found.blocks_read,
    };
    let stretches = found.iter().map(answer).collect();
    let document = Document { bars_file: &series.name, bars: series.len(), stretches };
    serde_json::to_string(&document).expect("an answer is JSON") + "\n"
}
