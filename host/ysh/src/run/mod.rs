//! A strategy over a file of bars: how it is made ready, what came of it, and how that is written.

pub mod asked;
pub mod charts;
pub mod csv;
pub mod decisions;
mod histogram;
pub mod json;
pub mod outcome;
pub mod page;
mod ready;
pub mod results;
mod study;
pub mod text;
pub mod used;

pub use ready::{made, names_of, notes_of, source_and_settings, Ready};
