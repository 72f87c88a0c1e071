//! One bar: `ysh_step` against `step_with_feeds`.
//!
//! Both sides step over the same bars, again and again, and are measured after few and after many bars. The Rust's side
//! includes what the text does for a bar (a map of its slots, the history moved up by one); the stand-in for its indicators
//! copies the slots of a bar once and hands them out one by one.

use std::hint::black_box;

use oracle::Reading;
use yshturpa::layout::state;

use super::setup::{Size, DEPTHS};
use super::timing::{by_turns, nanoseconds, ratio, side, REPETITIONS};
use crate::case::{bar_words, Case};
use crate::ours::Ours;
use crate::theirs::Theirs;

/// How many bars are seen before each of the two measurements, and how many one repetition steps over.
pub struct Marks {
    few: usize,
    many: usize,
    block: usize,
}

impl Marks {
    /// Bars that are stepped over in all.
    fn bars(&self) -> usize {
        self.many + REPETITIONS * self.block
    }
}

pub fn marks(depth: usize) -> Marks {
    match depth {
        0..=1_000 => Marks {
            few: 1_000,
            many: 100_000,
            block: 500,
        },
        _ => Marks {
            few: 5_000,
            many: 20_000,
            block: 50,
        },
    }
}

/// A step over bar number i.
pub type Stepper<'a> = Box<dyn FnMut(usize) + 'a>;

/// A run and the bars it has seen.
struct Walk<'a> {
    step: Stepper<'a>,
    seen: usize,
}

impl Walk<'_> {
    fn on_to(&mut self, bars: usize) {
        while self.seen < bars {
            (self.step)(self.seen);
            self.seen += 1;
        }
    }
}

/// Nanoseconds a bar of each side after few and after many bars, the sides by turns.
pub fn measure<const N: usize>(marks: &Marks, sides: [Stepper; N]) -> [(f64, f64); N] {
    let mut walks = sides.map(|step| Walk { step, seen: 0 });
    let mut at = |mark: usize| {
        walks.iter_mut().for_each(|walk| walk.on_to(mark));
        let sides = walks
            .each_mut()
            .map(|walk| side(marks.block, || walk.on_to(walk.seen + marks.block)));
        by_turns(sides)
    };
    let (few, many) = (at(marks.few), at(marks.many));
    std::array::from_fn(|i| (few[i], many[i]))
}

/// Our run over the case's bars, again and again, in a room of so many rows.
pub fn ours<'a>(case: &'a Case, marks: &Marks, rows: usize) -> Stepper<'a> {
    let bars: Vec<Vec<u64>> = case.bars.iter().map(bar_words).collect();
    let mut run = Ours::with_room(case, rows, marks.bars()).expect("an accepted case");
    let last = marks.bars() - 1;
    Box::new(move |i| {
        let bar = &bars[i % bars.len()];
        run.step(black_box(bar)).expect("a bar in the domain");
        assert!(i < last || run.state[state::TRADES] > 0, "a run that trades");
    })
}

/// Our run in a room with a place for every row.
pub fn roomy<'a>(case: &'a Case, marks: &Marks) -> Stepper<'a> {
    ours(case, marks, marks.bars())
}

pub fn theirs(case: &Case) -> Stepper<'_> {
    let mut run = Theirs::new(case, Reading::Rust);
    Box::new(move |i| {
        let bar = &case.bars[i % case.bars.len()];
        run.step(black_box(bar)).expect("a bar that the text takes");
    })
}

/// A step after many bars, in a full room of D rows and in one with a place.
pub fn both_rooms(size: Size) -> (f64, f64) {
    let (case, marks) = (size.case(), marks(size.depth));
    let [full, with_place] = measure(&marks, [ours(&case, &marks, size.depth), roomy(&case, &marks)]);
    (full.1, with_place.1)
}

fn row(size: Size) {
    let (case, marks) = (size.case(), marks(size.depth));
    let sides = [ours(&case, &marks, size.depth), roomy(&case, &marks), theirs(&case)];
    let [tight, roomy, rust] = measure(&marks, sides);
    let n = nanoseconds;
    println!(
        "| {} | {} | {} | {} | {} | {} | {} | {} | {} | {} | {} |",
        size.name(),
        size.depth,
        size.slots,
        n(tight.0),
        n(tight.1),
        n(roomy.0),
        n(roomy.1),
        n(rust.0),
        n(rust.1),
        ratio(tight.1, rust.1),
        ratio(roomy.1, rust.1),
    );
}

pub fn bench() {
    println!("## One bar\n");
    println!("Nanoseconds a bar. \"Few\" is after 1,000 bars (5,000 at D 4,096), \"many\" after 100,000 (20,000).\n");
    println!("| table | D | K | C, room of D rows: few | many | C, room not full: few | many | Rust: few | many | C / Rust | not full / Rust |");
    println!("|---|---|---|---|---|---|---|---|---|---|---|");
    for large in [false, true] {
        for depth in DEPTHS {
            for slots in [2, 64] {
                row(Size { large, depth, slots });
            }
        }
    }
    println!();
}

/// The largest table with ever more slots: from some number on the original's map of them outweighs looking through the lists.
pub fn by_slots() {
    println!("## By slots\n");
    println!("Nanoseconds a bar, the large table, D 14, after many bars in a room of D rows.\n");
    println!("| K | C | Rust | C / Rust |");
    println!("|---|---|---|---|");
    for slots in [2, 4, 6, 8, 16, 32] {
        let size = Size {
            large: true,
            depth: 14,
            slots,
        };
        let (case, marks) = (size.case(), marks(size.depth));
        let [(_, tight), (_, rust)] = measure(&marks, [ours(&case, &marks, size.depth), theirs(&case)]);
        println!(
            "| {slots} | {} | {} | {} |",
            nanoseconds(tight),
            nanoseconds(rust),
            ratio(tight, rust)
        );
    }
    println!();
}
