//! Metrics over a year of minutes, and the square root.

use std::hint::black_box;

use oracle::lists::dice::Dice;
use oracle::metrics::compute;
use oracle::portfolio::Trade;
use oracle::words::Line;
use yshturpa::calls;
use yshturpa::layout::METRIC_WORDS;

use super::timing::{by_turns, nanoseconds, ratio, side};
use crate::records;

/// Minutes of a year.
const POINTS: usize = 525_600;
const TRADES: u64 = 2_000;
const ROOTS: usize = 5_000;

fn trade(dice: &mut Dice) -> Trade {
    Trade {
        entry_time: 0,
        exit_time: 60,
        entry_price: 100.0,
        exit_price: 101.0,
        qty: 1.0,
        pnl: dice.span(-10.0, 10.0),
        return_pct: 1.0,
        reason: "signal".into(),
    }
}

fn metrics() {
    let dice = &mut Dice::new(1);
    let mut at = 10_000.0;
    let mut next = || {
        at *= dice.span(0.999, 1.001);
        at
    };
    let equity: Vec<f64> = (0..POINTS).map(|_| next()).collect();
    let trades: Vec<Trade> = (0..TRADES).map(|_| trade(dice)).collect();
    let points: Vec<u64> = equity.iter().flat_map(|x| [0, x.to_bits()]).collect();
    let trade_words = trades.iter().fold(Line::new(), records::ten_words);
    let initial = 10_000.0f64;
    let mut words = [0; METRIC_WORDS];
    let [ours, theirs] = by_turns([
        side(POINTS, || {
            calls::metrics(initial.to_bits(), black_box(&points), trade_words.words(), &mut words);
        }),
        side(POINTS, || {
            black_box(compute(initial, black_box(&equity), &trades));
        }),
    ]);
    println!(
        "| metrics over {POINTS} points, a point | {} | {} | {} |",
        nanoseconds(ours),
        nanoseconds(theirs),
        ratio(ours, theirs)
    );
}

fn root() {
    let dice = &mut Dice::new(1);
    let words: Vec<u64> = (0..ROOTS).map(|_| dice.span(0.0, 1e9).to_bits()).collect();
    let [ours, theirs] = by_turns([
        side(ROOTS, || {
            for &word in &words {
                black_box(calls::root(black_box(word)));
            }
        }),
        side(ROOTS, || {
            for &word in &words {
                black_box(f64::from_bits(black_box(word)).sqrt());
            }
        }),
    ]);
    println!(
        "| square root | {} | {} | {} |",
        nanoseconds(ours),
        nanoseconds(theirs),
        ratio(ours, theirs)
    );
}

pub fn bench() {
    println!("## Figures\n");
    println!("| what | C, ns | Rust, ns | C / Rust |");
    println!("|---|---|---|---|");
    metrics();
    root();
    println!();
}
