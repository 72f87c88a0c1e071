//! A loss of power: a whole dump, and a restore of it, beside a copy of as many bytes.

use std::hint::black_box;
use yshturpa::calls;

use super::setup::Size;
use super::timing::{by_turns, nanoseconds, ratio, side};
use crate::case::{bar_words, JUNK};
use crate::ours::Ours;

/// Bytes that are written in one measurement, about.
const WRITTEN: usize = 2_000_000;

/// A run whose room of D rows is full.
fn full(size: Size) -> Ours {
    let case = size.case();
    let bars: Vec<u64> = case
        .bars
        .iter()
        .cycle()
        .take(size.depth + 100)
        .flat_map(bar_words)
        .collect();
    let mut run = Ours::with_room(&case, size.depth, size.depth + 100).expect("an accepted case");
    let (done, answer) = run.steps(&bars);
    assert!(done == size.depth + 100 && answer.is_ok(), "bars in the domain");
    run
}

fn row(depth: usize, slots: usize) {
    let whole = Size {
        large: false,
        depth,
        slots,
    };
    let run = full(whole);
    let size = calls::dump_bytes(slots as u64, depth as u64);
    let calls = (WRITTEN / size as usize).max(2);
    let few = calls.div_ceil(20);
    let (mut area, mut copy, mut image) = (vec![0; size as usize], vec![0; size as usize], vec![0; size as usize]);
    // As a caller has them: 0 where nothing is given.
    let settings = run.settings.map(|word| if word == JUNK { 0 } else { word });
    let dump = |run: &Ours, area: &mut [u8]| {
        let answer = calls::dump(&settings, &run.state, &run.rows, black_box(area), 0, size);
        assert_eq!(answer, 0, "a state that can be dumped");
    };
    dump(&run, &mut image);
    let mut restored = full(whole);
    let [dump, memcpy, restore] = by_turns([
        side(calls, || (0..calls).for_each(|_| dump(&run, &mut area))),
        side(calls, || {
            (0..calls).for_each(|_| copy.copy_from_slice(black_box(&image)))
        }),
        side(few, || {
            for _ in 0..few {
                let answer = calls::restore(&settings, &mut restored.state, black_box(&image), &mut restored.rows);
                assert_eq!(answer, 0, "a whole image");
            }
        }),
    ]);
    println!(
        "| {depth} | {slots} | {size} | {} | {:.1} | {} | {} | {} |",
        nanoseconds(dump),
        size as f64 / dump,
        nanoseconds(memcpy),
        ratio(dump, memcpy),
        nanoseconds(restore),
    );
}

pub fn bench() {
    println!("## A loss of power\n");
    println!("Nanoseconds a call: a whole dump of a full window, a copy of as many bytes, and the restore.\n");
    println!("| D | K | bytes | dump | bytes a ns | memcpy | dump / memcpy | restore |");
    println!("|---|---|---|---|---|---|---|---|");
    row(14, 2);
    row(4_096, 64);
    println!();
}
