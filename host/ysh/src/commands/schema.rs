//! `ysh schema`: what a strategy may hold, for editors.

use super::Answer;

const SCHEMA: &str = include_str!("../strategy/schema.json");

pub fn answer() -> Answer {
    Answer { text: SCHEMA.to_owned(), document: true, ..Answer::default() }
}
