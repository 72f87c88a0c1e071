//! The original's strategy format: a JSON document. Its types, how it is read, what it must hold, and what has no counterpart here.

pub mod counterpart;
mod ignored;
mod operand;
mod place;
mod read;
pub mod spec;
mod validate;

pub use read::{in_words, read, Read};
pub use spec::Strategy;
pub use validate::validate;

/// What is wrong with a document, and where: a path in it such as `entry.all[2].gt[0]`, with line and column where these are known.
#[derive(Clone, Debug, PartialEq, Eq)]
pub struct Fault {
    pub place: String,
    pub text: String,
}

impl Fault {
    pub fn new(place: impl Into<String>, text: impl Into<String>) -> Fault {
        Fault { place: place.into(), text: text.into() }
    }
}
