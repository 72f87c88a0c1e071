//! A day in one call: `ysh_steps` over 1,440 bars in a full room of D rows, beside a call for each bar and the original.

use std::hint::black_box;

use super::engine::{marks, ours, theirs, Stepper};
use super::setup::Size;
use super::timing::{by_turns, nanoseconds, ratio, side, REPETITIONS};
use crate::case::{bar_words, Case};
use crate::ours::Ours;

const DAY: usize = 1_440;

/// Bars of a measurement where each is a call.
const BLOCK: usize = 200;

/// A run whose room is filled by a first call, and a closure that makes another.
fn in_days(case: &Case, depth: usize) -> impl FnMut() {
    let count = DAY.max(depth);
    let bars: Vec<u64> = case.bars.iter().cycle().take(count).flat_map(bar_words).collect();
    let words = bars.len() / count;
    let mut run = Ours::with_room(case, depth, depth + REPETITIONS * DAY).expect("an accepted case");
    let mut step = move |count: usize| {
        let (done, answer) = run.steps(black_box(&bars[..count * words]));
        assert!(done == count && answer.is_ok(), "bars in the domain");
    };
    step(depth);
    move || step(DAY)
}

/// Nanoseconds a bar: in one call of a day, in a call a bar, and by the original after many bars.
fn measured(case: &Case, depth: usize) -> [f64; 3] {
    let marks = marks(depth);
    let (mut single, mut rust) = (ours(case, &marks, depth), theirs(case));
    let (mut i, mut j) = (0, 0);
    while i < 2 * depth.max(DAY) {
        single(i);
        rust(j);
        (i, j) = (i + 1, j + 1);
    }
    let walk = |step: &mut Stepper, seen: &mut usize| {
        for _ in 0..BLOCK {
            step(*seen);
            *seen += 1;
        }
    };
    by_turns([
        side(DAY, in_days(case, depth)),
        side(BLOCK, || walk(&mut single, &mut i)),
        side(BLOCK, || walk(&mut rust, &mut j)),
    ])
}

pub fn bench() {
    println!("## A day in one call\n");
    println!("Nanoseconds a bar: one call of 1,440 bars, one call a bar, the Rust; a full room of D rows.\n");
    println!("| table | D | K | in one call | one call a bar | Rust | in one call / Rust | one call a bar / Rust | in one call / one call a bar |");
    println!("|---|---|---|---|---|---|---|---|---|");
    for (large, depth, slots) in [
        (false, 14, 2),
        (false, 14, 64),
        (false, 4_096, 2),
        (false, 4_096, 64),
        (true, 14, 2),
        (true, 14, 64),
        (true, 4_096, 64),
    ] {
        let size = Size { large, depth, slots };
        let [day, single, rust] = measured(&size.case(), depth);
        println!(
            "| {} | {depth} | {slots} | {} | {} | {} | {} | {} | {:.3} |",
            size.name(),
            nanoseconds(day),
            nanoseconds(single),
            nanoseconds(rust),
            ratio(day, rust),
            ratio(single, rust),
            day / single,
        );
    }
    println!();
}
