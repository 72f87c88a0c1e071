//! Two runs compared: a year of minutes with 10,000 trades, beside a plain loop over the same words and beside memcmp over all of them.

use std::hint::black_box;

use oracle::lists::dice::Dice;
use yshturpa::calls;
use yshturpa::layout::{DIFFERENCE_WORDS, POINT_WORDS, TRADE_WORDS};

use super::timing::{by_turns, nanoseconds, ratio, side};

const POINTS: usize = 525_600;
const TRADES: usize = 10_000;

struct Run {
    equity: Vec<u64>,
    trades: Vec<u64>,
}

impl Run {
    fn some() -> Self {
        let dice = &mut Dice::new(1);
        Self {
            equity: (0..POINT_WORDS * POINTS).map(|_| dice.bits()).collect(),
            trades: (0..TRADE_WORDS * TRADES).map(|_| dice.bits()).collect(),
        }
    }

    /// The same with every word of every trade another.
    fn other(&self) -> Self {
        Self {
            equity: self.equity.clone(),
            trades: self.trades.iter().map(|word| word ^ 1).collect(),
        }
    }
}

/// The first point whose equity differs, and the lines of the words of trades that do, as somebody would write it down in Rust.
fn plain(a: &Run, b: &Run, lines: &mut [u64]) -> usize {
    let points = a
        .equity
        .chunks_exact(POINT_WORDS)
        .zip(b.equity.chunks_exact(POINT_WORDS));
    let mut count = 0;
    let mut tell = |line: [u64; DIFFERENCE_WORDS]| {
        lines[DIFFERENCE_WORDS * count..][..DIFFERENCE_WORDS].copy_from_slice(&line);
        count += 1;
    };
    if let Some((i, (x, y))) = points.enumerate().find(|(_, (x, y))| x[1] != y[1]) {
        tell([1, i as u64, 1, x[1], y[1]]);
    }
    for (k, (&x, &y)) in a.trades.iter().zip(&b.trades).enumerate() {
        if x != y {
            tell([2, (k / TRADE_WORDS) as u64, (k % TRADE_WORDS) as u64, x, y]);
        }
    }
    count
}

fn row(name: &str, a: &Run, b: &Run, expected: usize) {
    let (mut lines, mut other, mut count) = (room(), room(), 0);
    let [ours, loops, all] = by_turns([
        side(1, || {
            let a = black_box(a);
            let answer = calls::compare(&a.equity, &a.trades, &b.equity, &b.trades, &mut lines, &mut count);
            assert_eq!(answer, 0);
        }),
        side(1, || assert_eq!(plain(black_box(a), b, &mut other), expected)),
        side(1, || {
            black_box(black_box(a).equity == b.equity && a.trades == b.trades);
        }),
    ]);
    assert_eq!(count as usize, expected);
    println!(
        "| {name} | {} | {} | {} | {} | {} |",
        nanoseconds(ours / 1e3),
        nanoseconds(loops / 1e3),
        nanoseconds(all / 1e3),
        ratio(ours, loops),
        ratio(ours, all)
    );
}

fn room() -> Vec<u64> {
    vec![0; DIFFERENCE_WORDS * (TRADE_WORDS * TRADES + 3)]
}

pub fn bench() {
    let run = Run::some();
    println!("## Two runs compared\n");
    println!("Microseconds for {POINTS} points and {TRADES} trades: `ysh_compare`, a plain loop over the same words that writes the same lines,");
    println!("and memcmp over all words, the times of points among them.\n");
    println!("| the runs | ysh_compare | plain loop | memcmp | / plain loop | / memcmp |\n|---|---|---|---|---|---|");
    row(
        "equal",
        &run,
        &Run {
            equity: run.equity.clone(),
            trades: run.trades.clone(),
        },
        0,
    );
    row(
        "every word of every trade differs",
        &run,
        &run.other(),
        TRADE_WORDS * TRADES,
    );
    println!();
}
