//! Lists of words that may be longer than memory. A short one is memory as any; past a size it stands in a temporary file without a name, in
//! the folder that TMPDIR names, and is mapped: the library sees it whole, as it must, and the system keeps of it in memory what it likes.
#![deny(unsafe_code)]

mod calls;
mod words;

pub use words::{swept, unnamed, Records, Words};
