//! Where a step's time goes: calls that are refused ever later, from the same state, and one that does its work.

use std::hint::black_box;
use yshturpa::calls;
use yshturpa::layout::{state, STATE_WORDS};

use super::setup::Size;
use super::timing::{each, nanoseconds};
use crate::case::bar_words;
use crate::ours::Ours;

const BLOCK: usize = 500;
const SEEN: usize = 1_000;

/// A run after some bars, with its next bar; each call begins from this state again.
struct Paused {
    run: Ours,
    state: [u64; STATE_WORDS],
    bar: Vec<u64>,
}

impl Paused {
    fn new(size: Size) -> Self {
        let case = size.case();
        let bars: Vec<Vec<u64>> = case.bars.iter().map(bar_words).collect();
        let mut run = Ours::with_room(&case, 2 * SEEN, 2 * SEEN).expect("an accepted case");
        for i in 0..SEEN {
            run.step(&bars[i % bars.len()]).expect("a bar in the domain");
        }
        Self {
            state: run.state,
            bar: bars[SEEN % bars.len()].clone(),
            run,
        }
    }

    /// Nanoseconds a call, and its answer's number.
    fn measure(&mut self) -> (f64, u64) {
        let mut answer = 0;
        let time = each(BLOCK, || {
            for _ in 0..BLOCK {
                self.run.state = self.state;
                let run = &mut self.run;
                let [entry, exit, short_entry, short_exit] = &run.lists;
                answer = calls::step(
                    &run.settings,
                    &mut run.state,
                    black_box(&self.bar),
                    &mut run.rows,
                    &mut run.equity,
                    &mut run.trades,
                    [entry, exit, short_entry, short_exit],
                );
            }
        });
        (time, answer >> 32)
    }
}

type Spoil = fn(&mut Paused);

/// What is wrong with the call, and so what it has looked at before it is refused.
const CALLS: [(&str, u64, Spoil); 5] = [
    ("settings and state read, rooms too small (10)", 10, |p| {
        p.run.rows.truncate(1)
    }),
    ("settings, counts and places looked at (14)", 14, |p| {
        p.state[state::EQUITY_POINTS] = 2 * SEEN as u64
    }),
    ("the bar looked at (11)", 11, |p| {
        let last = p.bar.len() - 3;
        (p.bar[last], p.bar[last + 2]) = (1, f64::NAN.to_bits());
    }),
    ("the four lists looked through (15)", 15, |p| {
        let list = p.run.lists.iter_mut().rev().find(|list| !list.is_empty());
        let list = list.expect("a list with steps");
        let last = list.len() - 1;
        list[last] ^= 0x80;
        list[last - 13] = 0xff;
    }),
    ("all of it, with a room that is not full", 0, |_| ()),
];

pub fn bench() {
    println!("## Where a step's time goes\n");
    println!("Nanoseconds a call that gets so far, D 3.\n");
    println!("| the call gets as far as | small, K 2 | small, K 64 | large, K 2 | large, K 64 |");
    println!("|---|---|---|---|---|");
    let sizes = [(false, 2), (false, 64), (true, 2), (true, 64)];
    for (what, number, spoil) in CALLS {
        let times = sizes.map(|(large, slots)| {
            let mut paused = Paused::new(Size { large, depth: 3, slots });
            spoil(&mut paused);
            let (time, answered) = paused.measure();
            assert_eq!(answered, number, "{what}");
            nanoseconds(time)
        });
        println!("| {what} | {} |", times.join(" | "));
    }
    println!();
}
