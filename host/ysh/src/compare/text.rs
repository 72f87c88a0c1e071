//! What differs, as text.

use yshturpa::Two;

use super::{Compared, Side, WORDS};
use crate::columns::{columns, counted, grouped, Side as Place};
use crate::run::outcome::{reason_name, REASONS};
use crate::show::Clock;
use crate::table::number;

pub fn text(compared: &Compared) -> String {
    let [a, b] = &compared.sides;
    let mut lines =
        vec![verdict(compared), String::new(), format!("a        {}", a.told()), format!("b        {}", b.told())];
    lines.extend(equity(compared).map(|said| format!("equity   {said}")));
    lines.extend(trades(compared).map(|said| format!("trades   {said}")));
    lines.extend(more(compared).into_iter().map(|said| format!("more     {said}")));
    if !compared.trades.is_empty() {
        lines.push(String::new());
        let heads = [("trade", Place::Right), ("word", Place::Left), ("a", Place::Right), ("b", Place::Right)];
        lines.extend(columns(&heads, &words(compared)));
    }
    lines.join("\n") + "\n"
}

pub fn verdict(compared: &Compared) -> String {
    match compared.same() {
        true => "nothing differs",
        false => "the runs differ",
    }
    .to_owned()
}

/// How times are told: by those of both runs.
pub fn clock(sides: &[Side; 2]) -> Clock {
    let times = sides.iter().flat_map(|side| side.equity.iter().map(|point| point.time));
    let ends = times.fold(None, |ends, time| match ends {
        None => Some((time, time)),
        Some((first, last)) => Some((time.min(first), time.max(last))),
    });
    ends.map_or(Clock::Number, |(first, last)| Clock::of(first, last))
}

/// The first bar whose equity differs.
pub fn equity(compared: &Compared) -> Option<String> {
    let (bar, words) = compared.equity?;
    let time = clock(&compared.sides).text(compared.sides[0].equity.get(bar)?.time);
    let [a, b] = two(words, float);
    Some(format!("first differs at bar {}, {time}: {a} and {b}", grouped(bar as u64)))
}

/// How many trades differ, of those that both have.
pub fn trades(compared: &Compared) -> Option<String> {
    let both = compared.sides.iter().map(|side| side.trades.len()).min().unwrap_or(0);
    let count = compared.trades.len() as u64;
    (count > 0).then(|| format!("{} of the {} that both have differ", grouped(count), grouped(both as u64)))
}

/// What one run has more.
pub fn more(compared: &Compared) -> Vec<String> {
    let said = |(from, counts): (usize, Two), one: &str, many: &str, from_one: usize| {
        let (which, by) = match counts.first > counts.second {
            true => ("a", counts.first - counts.second),
            false => ("b", counts.second - counts.first),
        };
        format!("{which} has {} more, from {one} {} on", counted(by, one, many), grouped((from + from_one) as u64))
    };
    let trades = compared.more_trades.map(|more| said(more, "trade", "trades", 1));
    let points = compared.more_points.map(|more| said(more, "bar", "bars", 0));
    trades.into_iter().chain(points).collect()
}

/// Each word that differs: the trade, from 1, the word's name, and what it is in both.
pub fn words(compared: &Compared) -> Vec<Vec<String>> {
    let clock = clock(&compared.sides);
    let mut rows = Vec::new();
    for (trade, differing) in &compared.trades {
        for (at, (word, both)) in differing.iter().enumerate() {
            let [a, b] = two(*both, |bits| value(*word, bits, clock));
            let number = if at == 0 { (trade + 1).to_string() } else { String::new() };
            rows.push(vec![number, WORDS[*word].to_owned(), a, b]);
        }
    }
    rows
}

/// Both words told; by their bits where they would look the same.
fn two(words: Two, told: impl Fn(u64) -> String) -> [String; 2] {
    let (first, second) = (told(words.first), told(words.second));
    match first == second {
        true => [words.first, words.second].map(|bits| format!("{bits:#018x}")),
        false => [first, second],
    }
}

fn float(bits: u64) -> String {
    number(f64::from_bits(bits))
}

/// A word of a trade: a time, a reason, or a float.
fn value(word: usize, bits: u64, clock: Clock) -> String {
    match WORDS[word] {
        "entry_time" | "exit_time" => clock.text(bits as i64),
        "reason" => {
            let found = usize::try_from(bits).ok().and_then(|n| REASONS.get(n.checked_sub(1)?));
            found.map_or_else(|| bits.to_string(), |reason| reason_name(*reason).to_owned())
        }
        _ => float(bits),
    }
}
