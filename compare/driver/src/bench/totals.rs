//! Exact totals over the trades of a run, beside a plain float sum of their pnl and a compensated one.

use std::hint::black_box;

use oracle::lists::dice::Dice;
use yshturpa::calls;
use yshturpa::layout::TRADE_WORDS;

use super::timing::{by_turns, nanoseconds, side};

const TRADES: usize = 1_000;
const TOTAL_WORDS: usize = 43;
const JOINS: usize = 100;

/// The pnl of each trade.
fn pnls(trades: &[u64]) -> impl Iterator<Item = f64> + '_ {
    trades.chunks_exact(TRADE_WORDS).map(|trade| f64::from_bits(trade[5]))
}

/// Neumaier's sum: what an addition loses is kept beside it.
fn compensated(trades: &[u64]) -> f64 {
    let (mut sum, mut lost) = (0.0f64, 0.0);
    for pnl in pnls(trades) {
        let more = sum + pnl;
        lost += if sum.abs() >= pnl.abs() {
            sum - more + pnl
        } else {
            pnl - more + sum
        };
        sum = more;
    }
    sum + lost
}

pub fn bench() {
    let dice = &mut Dice::new(1);
    let mut trades = vec![0; TRADES * TRADE_WORDS];
    for trade in trades.chunks_exact_mut(TRADE_WORDS) {
        trade[5] = dice.span(-490.0, 510.0).to_bits();
        trade[7] = dice.between(1, 6);
    }
    let [exact, plain, kept] = by_turns([
        side(TRADES, || {
            let mut totals = [0; TOTAL_WORDS];
            calls::totals(&mut totals, black_box(&trades));
            black_box(totals);
        }),
        side(TRADES, || {
            black_box(pnls(black_box(&trades)).sum::<f64>());
        }),
        side(TRADES, || {
            black_box(compensated(black_box(&trades)));
        }),
    ]);
    println!("## Exact totals\n");
    println!("| a trade of {TRADES} in a call | ns |\n|---|---|");
    println!("| exact totals: judged, counted and added | {} |", nanoseconds(exact));
    println!("| a plain float sum | {} |", nanoseconds(plain));
    println!("| a compensated float sum | {} |", nanoseconds(kept));
    joins(&trades);
    println!();
}

/// Totals of the trades with every pnl times a number.
fn totals_of(trades: &[u64], times: f64) -> [u64; TOTAL_WORDS] {
    let mut totals = [0; TOTAL_WORDS];
    let mut trades = trades.to_vec();
    for trade in trades.chunks_exact_mut(TRADE_WORDS) {
        trade[5] = (f64::from_bits(trade[5]) * times).to_bits();
    }
    assert_eq!(calls::totals(&mut totals, &trades), 0, "trades that are taken");
    totals
}

/// Totals of a sum above zero and of one below it, each joined with those of one trade, again and again.
fn joins(trades: &[u64]) {
    let one = totals_of(&trades[..TRADE_WORDS], 1.0);
    let join = |whole: [u64; TOTAL_WORDS]| {
        side(JOINS, move || {
            let mut totals = whole;
            for _ in 0..JOINS {
                calls::totals_join(&mut totals, black_box(&one));
            }
            black_box(totals);
        })
    };
    let [above, below] = by_turns([join(totals_of(trades, 1e6)), join(totals_of(trades, -1e6))]);
    println!("| a join | {} |", nanoseconds(above));
    println!("| a join whose sum is negative | {} |", nanoseconds(below));
}
