//! What document 01 says and the original has no rule for, written once more in Rust: which calls are refused, and with what
//! number and place; what a list of steps does. It follows the paper and docs/INTERFACE.md, not the proved code.

pub mod image;
pub mod machine;
pub mod refusals;
pub mod silent;
pub mod steps;
pub mod table;

/// A refusal's number and place as one word.
pub fn refusal(number: u64, place: u64) -> u64 {
    number << 32 | place
}

pub fn finite(word: u64) -> bool {
    f64::from_bits(word).is_finite()
}
