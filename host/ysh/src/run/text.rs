//! A run as text: the summary and the nine metrics.

use super::outcome::{of, reason_words, Outcome, REASONS};
use crate::columns::{columns, counted, grouped, Side};
use crate::show::{rounded, Clock};

pub fn text(outcome: &Outcome) -> String {
    let mut lines = vec![
        format!("rules    {}", [&outcome.file[..], &outcome.title].join(" ").trim_end()),
        format!("bars     {}", bars(outcome)),
        format!("capital  {}", rounded(outcome.capital)),
        format!("trades   {}", trades(outcome)),
        format!("fees     {}; funding {}", rounded(outcome.fees), rounded(outcome.tally.funding)),
        format!("equity   {} at the end", rounded(outcome.last_equity())),
    ];
    if !outcome.unread.is_empty() {
        lines.push(format!("columns  not read: {}", outcome.unread.join(", ")));
    }
    lines.push(String::new());
    let row = |(key, name, unit, x): (&str, &str, &str, f64)| {
        vec![name.to_owned(), rounded(x), [unit, of(key)].join(" ").trim().to_owned()]
    };
    let rows: Vec<Vec<String>> = outcome.nine().into_iter().map(row).collect();
    let no_heads = [("", Side::Left), ("", Side::Right), ("", Side::Left)];
    lines.extend(columns(&no_heads, &rows).into_iter().skip(1));
    lines.join("\n") + "\n"
}

pub fn bars(outcome: &Outcome) -> String {
    let count = counted(outcome.equity.len() as u64, "bar", "bars");
    let mut said = format!("{count} of {}", outcome.bars_file);
    if let (Some(first), Some(last)) = (outcome.equity.first(), outcome.equity.last()) {
        let clock = Clock::of(first.time, last.time);
        said.push_str(&format!(", {} to {}", clock.text(first.time), clock.text(last.time)));
    }
    if outcome.refusals.count > 0 {
        said.push_str(&format!("; {} refused and left out", counted(outcome.refusals.count, "bar", "bars")));
    }
    said
}

/// How many trades, how they went, and what they were left for.
pub fn trades(outcome: &Outcome) -> String {
    if outcome.trades.is_empty() {
        return "none".to_owned();
    }
    let tally = &outcome.tally;
    let reasons = REASONS.into_iter().filter(|reason| tally.left_for(*reason) > 0);
    let left: Vec<String> =
        reasons.map(|r| format!("{} {}", reason_words(r), grouped(tally.left_for(r) as u64))).collect();
    let [all, won, lost] = [outcome.trades.len(), tally.won, tally.lost].map(|n| grouped(n as u64));
    format!("{all}: {won} won, {lost} lost; left by {}", left.join(", "))
}
