//! Which tests of a rule said no over a stretch of bars: how often each decided, how often it was no or missing, and the bars that were one
//! test away from a yes.

pub mod asked;
mod asker;
pub mod json;
pub mod page;
mod shape;
pub mod tally;
pub mod text;
mod values;
mod watch;

pub use watch::Blocked;
