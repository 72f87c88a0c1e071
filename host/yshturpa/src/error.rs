//! What stops an engine from being made, or a rule from being asked.

use std::fmt;

use crate::Refusal;

/// A refusal of the library, or things handed over that do not belong together.
#[derive(Clone, Copy, Debug, PartialEq, Eq)]
pub enum Error {
    Refused(Refusal),
    /// K as it was given is not the table's.
    Slots {
        given: usize,
        table: usize,
    },
    /// D as it was given is below what the table and the settings need, or above what there is.
    Depth {
        given: usize,
        needed: usize,
        most: usize,
    },
    /// Saved words that are no state and whole rows of this K and D.
    Saved {
        words: usize,
    },
}

impl fmt::Display for Error {
    fn fmt(&self, f: &mut fmt::Formatter) -> fmt::Result {
        match self {
            Error::Refused(refusal) => write!(f, "{refusal}"),
            Error::Slots { given, table } => write!(f, "{given} slots were given, and the table has {table}"),
            Error::Depth { given, needed, most } => {
                write!(f, "a window of {given} rows was given; it has to be {needed} to {most}")
            }
            Error::Saved { words } => {
                write!(f, "{words} saved words are not a state and the rows it holds, in a window of this depth and these slots")
            }
        }
    }
}

impl std::error::Error for Error {}

impl From<Refusal> for Error {
    fn from(refusal: Refusal) -> Error {
        Error::Refused(refusal)
    }
}
