//! Four accounts on one stream, beside a call of `ysh_step` for each bar of each of them.

use std::hint::black_box;

use yshturpa::calls::{accounts, Account};

use super::setup::Size;
use super::timing::{by_turns, nanoseconds, ratio, side, REPETITIONS};
use crate::case::{bar_words, Case};
use crate::ours::Ours;

/// Four runs of a case, with places for so many bars.
fn four(case: &Case, bars: usize) -> [Ours; 4] {
    [(); 4].map(|()| Ours::with_room(case, case.settings.depth, bars).expect("an accepted case"))
}

fn row(depth: usize, slots: usize, count: usize) {
    let size = Size {
        large: false,
        depth,
        slots,
    };
    let case = size.case();
    let bars: Vec<u64> = case.bars.iter().take(count).flat_map(bar_words).collect();
    let width = bars.len() / count;
    let table = case.table.bytes();
    let (mut together, mut alone) = (four(&case, REPETITIONS * count), four(&case, REPETITIONS * count));
    let (mut stream, mut done, mut statuses) = ([slots as u64, 0], 0, [[0; 3]; 4]);
    let [ours, single] = by_turns([
        side(count, || {
            let mut statuses = statuses.iter_mut();
            let [a, b, c, d] = together.each_mut().map(|run| Account {
                table: &table,
                settings: &run.settings,
                entry: &run.lists[0],
                exit: &run.lists[1],
                state: &mut run.state,
                rows: &mut run.rows,
                equity: &mut run.equity,
                trades: &mut run.trades,
                status: statuses.next().expect("four of them"),
            });
            let answer = accounts(&mut stream, black_box(&bars), &mut done, a, b, c, d);
            assert_eq!(answer, 0);
        }),
        side(count, || {
            for run in &mut alone {
                for bar in black_box(&bars).chunks(width) {
                    run.step(bar).expect("a bar in the domain");
                }
            }
        }),
    ]);
    assert!(
        statuses == [[0; 3]; 4] && together[3].state == alone[3].state,
        "accounts as they are alone"
    );
    println!(
        "| {depth} | {slots} | {count} | {} | {} | {} |",
        nanoseconds(ours),
        nanoseconds(single),
        ratio(ours, single)
    );
}

pub fn bench() {
    println!("## Four accounts\n");
    println!("Nanoseconds a bar of the stream, small table: one call for n bars and four accounts, and 4n calls of `ysh_step`.\n");
    println!("| D | K | n | in one call | a call each | in one call / a call each |\n|---|---|---|---|---|---|");
    for (depth, slots) in [(14, 2), (14, 64), (200, 2)] {
        for count in [100, 1_440] {
            row(depth, slots, count);
        }
    }
    println!();
}
