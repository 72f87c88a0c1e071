//! `driver compare SEED RUNS` and `driver replay < runs`.

use std::io::{self, BufRead};

use super::shrink::shrink;
use super::{compare_case, Mismatch, Plan, Tally};
use crate::case::Case;
use crate::cases;
use crate::progress::Progress;
use crate::view::View;

impl Tally {
    fn add(&mut self, other: &Self) {
        self.bars += other.bars;
        self.rules += other.rules;
        self.yes += other.yes;
        self.trades += other.trades;
        self.lots += other.lots;
        self.turned_away += other.turned_away;
        self.reasons.iter_mut().zip(other.reasons).for_each(|(a, b)| *a += b);
        self.entries.iter_mut().zip(other.entries).for_each(|(a, b)| *a += b);
        self.not_reached += other.not_reached;
        self.explained.add(&other.explained);
    }

    /// What became of an entry that was due on a bar.
    pub fn order(&mut self, before: &View, after: &View) {
        let due = matches!(before.word("order"), 1 | 2) && before.word("order delay") == 0;
        if due && after.word("entered") == 1 && after.word("entry bar") == before.word("bars seen") {
            self.entries[before.word("order kind") as usize] += 1;
        }
        let works_on = ["order", "order level", "order limit"]
            .iter()
            .all(|name| before.word(name) == after.word(name));
        if due && before.word("order kind") != 0 && works_on {
            self.not_reached += 1;
        }
    }

    fn print(&self) {
        let [market, limit, stop, stop_limit] = self.entries;
        println!(
            "entries held at the close of their bar: market {market}, limit {limit}, stop {stop}, stop-limit {stop_limit}; \
             bars on which one was due and not reached: {}",
            self.not_reached
        );
        let [_, signal, stop, trailing, take, liquidation, end] = self.reasons;
        println!(
            "trades {}: signal {signal}, stop loss {stop}, trailing stop {trailing}, take profit {take}, \
             liquidation {liquidation}, end {end}; rule answers {}, of them yes {}",
            self.trades, self.rules, self.yes
        );
        println!(
            "runs with a lot, which the Rust as it stands has not: {}; bars refused with 16 in them: {}",
            self.lots, self.turned_away
        );
        println!(
            "runs that the Rust as it stands answers alike to the end: {}; parted by an entry of docs/DIFFERENCES.md: {}",
            self.explained.undivided,
            self.explained.text()
        );
    }
}

fn show(mismatch: &Mismatch) {
    let place = mismatch
        .bar
        .map_or("before or after the bars".into(), |bar| format!("bar {bar}"));
    println!("differs from {}, {place}:", mismatch.against);
    for one in &mismatch.unlike {
        let floats = (f64::from_bits(one.ours), f64::from_bits(one.theirs));
        println!(
            "  {}: ours {:016x} ({:e}), theirs {:016x} ({:e})",
            one.what, one.ours, floats.0, one.theirs, floats.1
        );
    }
}

fn report(case: &Case, plan: Plan, mismatch: Mismatch) {
    show(&mismatch);
    let (case, mismatch) = shrink(case, plan, mismatch);
    println!("smallest case found, {} bars:", case.bars.len());
    show(&mismatch);
    println!("{:?}\n{:?}", case.settings, case.table.trees);
    case.lines().iter().for_each(|line| println!("{line}"));
}

/// Compares `runs` random cases; whether all agree.
pub fn compare(seed: u64, runs: u64) -> bool {
    let mut tally = Tally::default();
    let mut progress = Progress::new("compare", runs);
    for number in 0..runs {
        let (case, plan) = cases::some_case(seed, number);
        match compare_case(&case, plan) {
            Ok(more) => tally.add(&more),
            Err(mismatch) => {
                println!("seed {seed}, run {number}");
                report(&case, plan, mismatch);
                println!(
                    "compare: seed {seed}, {} runs, {} bars compared, 1 differs",
                    number, tally.bars
                );
                return false;
            }
        }
        progress.at(number + 1, || format!("{} bars", tally.bars));
    }
    tally.print();
    println!(
        "compare: seed {seed}, {runs} runs, {} bars compared, 0 differ",
        tally.bars
    );
    true
}

/// Compares the runs of a list on standard input, as `oracle gen` writes them.
pub fn replay() -> io::Result<bool> {
    let lines: Vec<String> = io::stdin().lock().lines().collect::<io::Result<_>>()?;
    let cases = Case::of_lines(&lines);
    let plan = Plan { spare: 1, ask_every: 1 };
    let mut tally = Tally::default();
    for (number, case) in cases.iter().enumerate() {
        match compare_case(case, plan) {
            Ok(more) => tally.add(&more),
            Err(mismatch) => {
                println!("run {number} of the list");
                report(case, plan, mismatch);
                println!("replay: {} bars compared, 1 differs", tally.bars);
                return Ok(false);
            }
        }
    }
    tally.print();
    println!("replay: {} runs, {} bars compared, 0 differ", cases.len(), tally.bars);
    Ok(true)
}
