//! `strategies SEED COUNT`: the converter of `ysh` against the original's own types.
//!
//! Random strategies, whole and damaged, as JSON texts. Both sides read the same, or both refuse. What `ysh` compiles is what
//! the original's `eval_condition` says, over random rows and positions; what it does not compile breaks a limit, or has no
//! counterpart. The last line sums up; the status is 1 where anything differs.

include!(concat!(env!("OUT_DIR"), "/modules.rs"));

mod answers;
mod damage;
mod documents;
mod limits;
mod meaning;
mod settings;
mod trees;
mod write;

/// What the text of `spec` asks of the indicator registry, which is not at hand: it knows no kind.
mod registry {
    use crate::spec::Feed;

    pub fn feed_of(_kind: &str) -> Option<Feed> {
        None
    }
}

use dice::Dice;
use meaning::Counts;

fn main() {
    let arguments: Vec<u64> = std::env::args().skip(1).filter_map(|text| text.parse().ok()).collect();
    let &[seed, count] = &arguments[..] else {
        eprintln!("usage: strategies SEED COUNT");
        std::process::exit(2)
    };
    let mut dice = Dice(seed);
    let mut counts = Counts::default();
    for number in 0..count {
        let document = documents::strategy(&mut dice);
        let text = write::text(&document, &mut dice);
        let damaged = damage::damaged(&document, &text, &mut dice);
        for text in [text, damaged] {
            if let Err(difference) = meaning::compare(&text, &mut dice, &mut counts) {
                println!("strategy {number} of seed {seed}: {difference}\n{text}");
                std::process::exit(1)
            }
        }
    }
    println!("{counts}");
}
