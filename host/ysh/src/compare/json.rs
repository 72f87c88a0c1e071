//! What differs, for programs.

use std::collections::BTreeMap;

use serde::Serialize;
use yshturpa::Two;

use super::{Compared, Side, WORDS};
use crate::run::json::Exact;
use crate::run::outcome::{reason_name, REASONS};

#[derive(Serialize)]
struct Document<'a> {
    same: bool,
    a: Run<'a>,
    b: Run<'a>,
    /// The first bar whose equity differs.
    equity: Option<Bar>,
    trades: Vec<Trade>,
    more_trades: Option<More>,
    more_bars: Option<More>,
}

#[derive(Serialize)]
struct Run<'a> {
    name: &'a str,
    of: &'a str,
    bars: usize,
    trades: usize,
}

#[derive(Serialize)]
struct Bar {
    bar: usize,
    time: i64,
    a: Exact,
    b: Exact,
}

/// A trade, from 0, and its words that differ.
#[derive(Serialize)]
struct Trade {
    trade: usize,
    words: BTreeMap<&'static str, Both>,
}

#[derive(Serialize)]
struct Both {
    a: Word,
    b: Word,
}

#[derive(Serialize)]
#[serde(untagged)]
enum Word {
    Time(i64),
    Reason(&'static str),
    Float(Exact),
}

#[derive(Serialize)]
struct More {
    from: usize,
    a: u64,
    b: u64,
}

pub fn json(compared: &Compared) -> String {
    let run = |side: &'_ Side| (side.equity.len(), side.trades.len());
    let [a, b] = &compared.sides;
    let side = |side| {
        let (bars, trades) = run(side);
        Run { name: &side.name, of: &side.of, bars, trades }
    };
    let more = |(from, counts): (usize, Two)| More { from, a: counts.first, b: counts.second };
    let equity = compared.equity.and_then(|(bar, words)| {
        let [first, second] = [words.first, words.second].map(|bits| Exact(f64::from_bits(bits)));
        Some(Bar { bar, time: a.equity.get(bar)?.time, a: first, b: second })
    });
    let document = Document {
        same: compared.same(),
        a: side(a),
        b: side(b),
        equity,
        trades: compared.trades.iter().map(|(trade, words)| trade_of(*trade, words)).collect(),
        more_trades: compared.more_trades.map(more),
        more_bars: compared.more_points.map(more),
    };
    serde_json::to_string(&document).expect("an answer is JSON") + "\n"
}

fn trade_of(trade: usize, words: &[(usize, Two)]) -> Trade {
    let both = |(word, two): &(usize, Two)| {
        let name = WORDS[*word];
        (name, Both { a: value(name, two.first), b: value(name, two.second) })
    };
    Trade { trade, words: words.iter().map(both).collect() }
}

fn value(name: &str, bits: u64) -> Word {
    match name {
        "entry_time" | "exit_time" => Word::Time(bits as i64),
        // No trade has another than these: one that a library wrote is read as the last.
        "reason" => Word::Reason(reason_name(REASONS[(bits as usize).clamp(1, REASONS.len()) - 1])),
        _ => Word::Float(Exact(f64::from_bits(bits))),
    }
}
