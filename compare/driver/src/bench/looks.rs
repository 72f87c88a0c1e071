//! A look over many rows: `ysh_run` over a list with one Highest, beside a plain loop over the words that it has to read.

use std::hint::black_box;

use oracle::lists::runs::Bar;
use yshturpa::calls;

use super::setup::Size;
use super::timing::{by_turns, nanoseconds, ratio, side, Side};
use crate::case::row_words;
use crate::extremes::trees::{table, Condition, Operand};
use crate::ours::translated;
use crate::records::{self, Position};

const BLOCK: usize = 500;
const SLOTS: usize = 2;
const LENGTHS: [usize; 3] = [20, 100, 1_000];

const FLAT: Position = Position {
    qty: 0,
    entered: 0,
    entry_bar: 0,
    bars_seen: 1,
};

/// The words of a row.
const HIGH: usize = 2;
const OPEN: usize = 1;
const LOW: usize = 3;
const CLOSE: usize = 4;
const MASK: usize = 6;
const SLOT: usize = 7;

fn float(row: &[u64], word: usize) -> f64 {
    f64::from_bits(row[word])
}

/// The greatest of what `value` reads of each row; none where it is absent in one of them.
#[inline(always)]
fn plain(rows: &[u64], value: impl Fn(&[u64]) -> Option<f64>) -> Option<f64> {
    let mut greatest = f64::NEG_INFINITY;
    for row in rows.chunks_exact(records::row_words(SLOTS)) {
        let x = value(row)?;
        if x > greatest {
            greatest = x;
        }
    }
    Some(greatest)
}

fn of_a_price(rows: &[u64]) -> Option<f64> {
    plain(rows, |row| Some(float(row, HIGH)))
}

fn of_a_slot(rows: &[u64]) -> Option<f64> {
    plain(rows, |row| (row[MASK] & 1 != 0).then(|| float(row, SLOT)))
}

fn of_hlc3(rows: &[u64]) -> Option<f64> {
    plain(rows, |row| {
        Some((float(row, HIGH) + float(row, LOW) + float(row, CLOSE)) / 3.0)
    })
}

fn of_ohlc4(rows: &[u64]) -> Option<f64> {
    plain(rows, |row| {
        Some((float(row, OPEN) + float(row, HIGH) + float(row, LOW) + float(row, CLOSE)) / 4.0)
    })
}

type Plain = fn(&[u64]) -> Option<f64>;

const OVER: [(&str, Operand, Plain); 4] = [
    ("a price", Operand::Price(1), of_a_price),
    ("a slot", Operand::Slot(0), of_a_slot),
    ("hlc3", Operand::Price(5), of_hlc3),
    ("ohlc4", Operand::Price(6), of_ohlc4),
];

/// `ysh_run` over the list of "the highest of the last n is above no price".
fn through_c<'a>(over: &Operand, n: usize, rows: &'a [u64]) -> Side<'a> {
    let highest = Operand::Extreme(9, Box::new(over.clone()), n as u32);
    let rule = Condition::Compare(16, highest, Operand::Number(0.0));
    let list = translated(&table(2, SLOTS as u8, [&rule, &rule]), 0).expect("an accepted table");
    side(BLOCK, move || {
        let (mut answer, mut visits) = (0, 0);
        for _ in 0..BLOCK {
            calls::run(
                black_box(&list),
                black_box(rows),
                SLOTS as u64,
                n as u64,
                FLAT.words(),
                &mut answer,
                &mut visits,
            );
        }
        assert_eq!(
            (answer, visits),
            (1, n as u64 + 2),
            "a highest above 0, and {n} visits for it"
        );
    })
}

fn in_a_loop(plain: Plain, rows: &[u64]) -> Side<'_> {
    side(BLOCK, move || {
        for _ in 0..BLOCK {
            black_box(plain(black_box(rows)));
        }
    })
}

pub fn bench() {
    println!("## A look over many rows\n");
    println!("Nanoseconds for the highest of n rows, K {SLOTS}: `ysh_run` over a list of three steps, the same less a look over one row, and a plain");
    println!("loop in Rust over the words that have to be read (of a slot the mask and the slot, of hlc3 three, of ohlc4 four).\n");
    println!("| over | n | ysh_run | the look alone | plain loop | ysh_run / plain | the look alone / plain |");
    println!("|---|---|---|---|---|---|---|");
    let size = Size {
        large: false,
        depth: 14,
        slots: SLOTS,
    };
    let bars = size.case().bars;
    let rows = |n: usize| -> Vec<u64> { bars.iter().map(whole).take(n).flat_map(|bar| row_words(&bar)).collect() };
    for (name, over, plain) in OVER {
        let first = rows(1);
        for n in LENGTHS {
            let rows = rows(n);
            let sides = [
                through_c(&over, n, &rows),
                through_c(&over, 1, &first),
                in_a_loop(plain, &rows),
            ];
            let [c, one, rust] = by_turns(sides);
            println!(
                "| {name} | {n} | {} | {} | {} | {} | {} |",
                nanoseconds(c),
                nanoseconds(c - one),
                nanoseconds(rust),
                ratio(c, rust),
                ratio(c - one, rust)
            );
        }
    }
    println!();
}

/// A bar with all its slots.
fn whole(bar: &Bar) -> Bar {
    let close = bar.candle.close;
    Bar {
        slots: bar.slots.iter().map(|slot| slot.or(Some(close))).collect(),
        ..bar.clone()
    }
}
