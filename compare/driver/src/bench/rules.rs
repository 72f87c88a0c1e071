//! Rules alone: `ysh_run` over the window, and `ysh_rule`, against `eval_condition`.

use std::hint::black_box;

use oracle::registry::slot_name;
use oracle::rules::{eval_condition, BarRow, RuleState};
use yshturpa::calls;

use super::setup::{Size, DEPTHS};
use super::timing::{by_turns, nanoseconds, ratio, side};
use crate::case::row_words;
use crate::ours::translated;
use crate::records::Position;

const BLOCK: usize = 2_000;
/// Of the slower calls.
const FEW: usize = 50;

const LONG: Position = Position {
    qty: 0x3ff0_0000_0000_0000,
    entered: 1,
    entry_bar: 3,
    bars_seen: 9,
};

fn row(size: Size, tree: usize, name: &str) {
    let case = size.case();
    let bars = &case.bars[..size.depth];
    let rows: Vec<u64> = bars.iter().flat_map(row_words).collect();
    let (table, slots) = (case.table.bytes(), case.table.slots as u64);
    let list = translated(&table, tree as u64).expect("an accepted table");
    let named = |bar: &oracle::lists::runs::Bar| {
        let slots = bar.slots.iter().enumerate();
        slots
            .filter_map(|(k, slot)| slot.map(|x| (slot_name(k).as_str().into(), x)))
            .collect()
    };
    let history: Vec<BarRow> = bars
        .iter()
        .map(|bar| BarRow {
            candle: bar.candle,
            values: named(bar),
        })
        .collect();
    let condition = case.table.trees[tree].as_ref().expect("a tree that is there");
    let state = RuleState {
        in_position: true,
        bars_since_entry: Some(5),
    };
    let (mut answer, mut visits, mut said) = (0, 0, 0);
    let [steps, plain, rust] = by_turns([
        side(BLOCK, || {
            for _ in 0..BLOCK {
                calls::run(
                    black_box(&list),
                    black_box(&rows),
                    slots,
                    size.depth as u64,
                    LONG.words(),
                    &mut answer,
                    &mut visits,
                );
            }
        }),
        side(FEW, || {
            for _ in 0..FEW {
                calls::rule(
                    black_box(&table),
                    tree as u64,
                    black_box(&rows),
                    LONG.words(),
                    &mut said,
                );
            }
        }),
        side(BLOCK, || {
            for _ in 0..BLOCK {
                let last = history.len() - 1;
                black_box(eval_condition(black_box(condition), black_box(&history), last, state));
            }
        }),
    ]);
    println!(
        "| {}, {name} | {} | {} | {visits} | {} | {} | {} | {} |",
        size.name(),
        size.depth,
        size.slots,
        nanoseconds(steps),
        nanoseconds(plain),
        nanoseconds(rust),
        ratio(steps, rust)
    );
}

pub fn bench() {
    println!("## Rules alone\n");
    println!("Nanoseconds an answer. `ysh_run` looks the list through first (15); `ysh_rule` checks the whole table first (1 to 9).\n");
    println!("| tree | D | K | visits | ysh_run | ysh_rule | eval_condition | ysh_run / Rust |");
    println!("|---|---|---|---|---|---|---|---|");
    for large in [false, true] {
        for depth in DEPTHS {
            for slots in [2, 64] {
                row(Size { large, depth, slots }, 0, "entry");
            }
        }
        row(
            Size {
                large,
                depth: 200,
                slots: 2,
            },
            1,
            "exit",
        );
    }
    println!();
}
