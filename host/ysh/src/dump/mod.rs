//! A box's dump: what an image holds, made from a run, gone on from, cut short.

pub mod asked;
pub mod words;
