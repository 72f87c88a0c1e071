//! `driver accounts SEED COUNT`: four accounts on one stream of bars, against four runs of `ysh_step` alone and against the Rust.
//!
//! Each account has a random table and random settings; the stream has as many slots as they need, more, or too few. Bars come in calls of any
//! length, some of them to be refused. Accounts join late, are stopped by every number there is, and go on. What the call should come to is
//! request 14 written once more (`model`), with a call of `ysh_step` for each account's own bar; after each such bar the Rust, by document 01's
//! reading, must hold the same. Beside each call come damaged ones; every list and room stands between guards.

mod lent;
mod members;
mod model;
mod streams;

use crate::progress::Progress;
use streams::Stream;

/// What was compared.
#[derive(Default)]
pub struct Tally {
    pub streams: u64,
    pub bars: u64,
    /// Bars of an account that the Rust did too.
    pub with_rust: u64,
    pub calls: u64,
    pub damaged: u64,
    /// Answers and stops by their number.
    pub answers: [u64; 23],
    pub stops: [u64; 23],
}

impl Tally {
    pub fn called(&mut self, answer: u64, done: u64) {
        self.calls += 1;
        self.bars += done;
        self.answers[(answer >> 32) as usize] += 1;
    }

    pub fn stopped(&mut self, refused: u64) {
        self.stops[(refused >> 32) as usize] += 1;
    }
}

fn by_number(counts: &[u64]) -> String {
    let some = counts.iter().enumerate().filter(|(_, count)| **count > 0);
    let each: Vec<String> = some.map(|(number, count)| format!("{number}: {count}")).collect();
    each.join(", ")
}

/// Runs `count` streams; whether every account was as it is alone.
pub fn accounts(seed: u64, count: u64) -> bool {
    let mut tally = Tally::default();
    let mut progress = Progress::new("accounts", count);
    for number in 0..count {
        let dice = &mut crate::cases::dice_of(seed, number);
        if let Err(what) = Stream::some(dice).run(dice, &mut tally) {
            println!("stream {number}: {what}");
            println!("accounts: seed {seed}, {number} streams compared, 1 differs");
            return false;
        }
        progress.at(number + 1, || format!("{} bars", tally.bars));
    }
    println!("answers by number (0: done): {}", by_number(&tally.answers));
    println!("accounts stopped, by number: {}", by_number(&tally.stops));
    println!(
        "accounts: seed {seed}, {count} streams, {} bars in {} calls, {} bars of an account beside the Rust, {} damaged calls, 0 differ",
        tally.bars, tally.calls, tally.with_rust, tally.damaged
    );
    true
}
