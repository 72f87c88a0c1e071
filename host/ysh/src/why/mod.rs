//! Why a rule said what it said at a bar: the moment, the chain in words, the rule as a tree.

pub mod asked;
pub mod chain;
pub mod json;
pub mod moment;
pub mod page;
pub mod place;
pub mod values;
pub mod words;
