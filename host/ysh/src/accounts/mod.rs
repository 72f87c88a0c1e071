//! Four paper accounts on one stream of bars, each as it would be alone.

pub mod asked;
mod slots;
mod stream;
pub mod told;

pub use stream::{streamed, Ended, Streamed};
