//! `driver guard SEED CALLS`: damaged and random input through the C interface.
//!
//! Each call must answer what document 01 says (src/model): the number and place of its refusal, or that it did its work. No guard
//! around any room may be touched; a refused call changes no word that was lent to it; one that did its work changes what it says
//! it changes and nothing else.

mod answers;
mod base;
pub mod damage;
mod day;
mod lent;
pub mod room;
mod runs;
mod tables;

pub use tables::nested;

use oracle::lists::dice::Dice;
use yshturpa::calls;

use crate::figures;
use crate::progress::Progress;
use base::Base;
use lent::Lent;

/// Runs that are damaged in turn.
const BASES: usize = 48;

pub struct Guard {
    dice: Dice,
    bases: Vec<Base>,
    lent: Lent,
    /// Answers by number: 0 for work done, 1 to 16.
    answers: [u64; 17],
}

/// What went wrong.
type Outcome = Result<(), String>;

impl Guard {
    fn new(seed: u64) -> Self {
        Self {
            dice: Dice::new(seed),
            bases: Base::some(seed, BASES),
            lent: Lent::default(),
            answers: [0; 17],
        }
    }

    fn call(&mut self) -> Outcome {
        let base = self.dice.below(BASES as u64) as usize;
        match self.dice.below(100) {
            0..=29 => self.step(base),
            30..=44 => self.steps(base),
            45..=54 => self.finish(base),
            55..=64 => self.check(base),
            65..=67 => self.depth(base),
            68 | 69 => self.silent(base),
            70..=76 => self.translate(base),
            77..=84 => self.rule(base),
            85..=92 => self.run(base),
            93..=95 => self.metrics(base),
            96 | 97 => self.fresh(base),
            _ => self.root(),
        }
    }

    fn root(&mut self) -> Outcome {
        let word = damage::word(&mut self.dice);
        let (ours, theirs) = (calls::root(word), figures::root_word(word));
        self.answers[0] += 1;
        match ours == theirs {
            true => Ok(()),
            false => Err(format!("the root of {word:016x}: {ours:016x}")),
        }
    }

    /// Some calls are left as they are; most are damaged once or twice.
    fn damages(&mut self) -> u64 {
        self.dice.pick(&[0, 1, 1, 1, 1, 2])
    }

    /// Holds an answer against what was expected, and against what it left behind; whether the call did its work.
    fn judge(&mut self, call: &str, answer: u64, expected: Result<(), u64>) -> Result<bool, String> {
        let expected = expected.err().unwrap_or(0);
        let wrong = if answer != expected {
            "another answer"
        } else if !self.lent.guards_hold() {
            "a guard was touched"
        } else if !self.lent.data_unchanged() {
            "what was only handed over was changed"
        } else if answer != 0 && !self.lent.unchanged() {
            "a refused call changed what was lent"
        } else {
            self.answers[(answer >> 32) as usize] += 1;
            return Ok(answer == 0);
        };
        Err(format!("{call}: {wrong}: answer {answer:x}, expected {expected:x}"))
    }
}

/// Makes `count` calls; whether each was as it must be.
pub fn guard(seed: u64, count: u64) -> bool {
    let mut guard = Guard::new(seed);
    let mut progress = Progress::new("guard", count);
    for number in 0..count {
        if let Err(wrong) = guard.call() {
            println!("call {number}: {wrong}\n{}", guard.lent.text());
            println!("guard: seed {seed}, {number} calls, 1 wrong");
            return false;
        }
        if number % 4_096 == 0 {
            progress.at(number, String::new);
        }
    }
    let answers: Vec<String> = guard
        .answers
        .iter()
        .enumerate()
        .map(|(n, count)| format!("{n}: {count}"))
        .collect();
    println!("answers by number (0: done): {}", answers.join(", "));
    println!("guard: seed {seed}, {count} calls, 0 wrong");
    true
}
