//! Every strategy over every file of bars: the runs, a row each, their exact totals, and parts of them that are joined again.

pub mod asked;
mod chart;
mod csv;
pub mod document;
mod exact;
mod inputs;
pub mod join;
mod journal;
pub mod page;
mod row;
mod sum;
pub mod text;
mod work;

pub use csv::csv;
pub use journal::Journal;
pub use work::{done, Work};
