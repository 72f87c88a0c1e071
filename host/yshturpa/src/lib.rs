//! Yshturpa from Rust: a trading-rule engine whose answers, and the depth of bar history they need, are proved.
//!
//! Every call of the C interface is here, over records in place of words. [`Engine`] owns every room that the interface is lent,
//! so nothing here can be misused from safe code. What a call refuses comes back as a [`Refusal`] with the papers' number and
//! place, and a refused call has changed nothing.
#![deny(unsafe_code)]

mod bar;
mod bars;
pub mod calls;
mod closes;
mod compare;
mod dump;
mod engine;
mod error;
mod four;
pub mod layout;
mod refusal;
mod results;
mod rule;
mod saved;
mod settings;
mod state;
mod table;
mod totals;
mod why;

pub use bar::{Bar, Funding, Rows};
pub use bars::{Bars, Done};
pub use closes::{Closes, Room, Stretch};
pub use compare::{compare, compare_words, Difference, Two};
pub use dump::{parts_written, Image};
pub use engine::Engine;
pub use error::Error;
pub use four::{Account, Status, Stream};
pub use refusal::Refusal;
pub use results::{metrics, metrics_of_words, Metrics, Point, Reason, Trade};
pub use rule::{rule, run, Ran};
pub use saved::Saved;
pub use settings::{EntryOrder, Settings, Sizing, Slippage};
pub use state::{Order, OrderLevel, Position, State};
pub use table::{check, depth, dump_bytes, silent, slots_of, translate, Accepted, Depth, Tree};
pub use totals::Totals;
pub use why::{why, why_over, why_within, By, WhyLine};

/// The version of this wrapper, which is that of the library it was written for.
pub const VERSION: &str = env!("CARGO_PKG_VERSION");

/// The version of the library that is linked, as one number: major · 1,000,000 + minor · 1,000 + patch.
pub fn library_version() -> u64 {
    calls::version()
}

/// The square root, correctly rounded, computed from the bits alone.
pub fn root(x: f64) -> f64 {
    f64::from_bits(calls::root(x.to_bits()))
}
