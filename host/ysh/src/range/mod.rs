//! The high and the low of stretches of closes, by blocks.

pub mod asked;
mod questions;
mod series;
pub mod told;

pub use questions::questions;
pub use series::Series;
