//! A rule table as its nodes, and what is asked about them. What a rule means, how far back it reaches and which tests fall silent
//! is answered by the library alone.

mod forest;
mod node;
mod reach;
mod words;

pub use forest::{bytes_of, Forest};
pub use node::Node;
pub use reach::{deepest, reach_of, reads, Deepest, Reads};
pub use words::{number, Words};
