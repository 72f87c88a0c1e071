//! A run's state and rows, to be kept and gone on from.

use crate::layout::{state, ROW_FIXED, STATE_WORDS};
use crate::{Error, State};

/// The state after a bar and the rows held then, the oldest first.
#[derive(Clone, Debug, PartialEq, Eq)]
pub struct Saved {
    state: State,
    rows: Vec<u64>,
}

impl Saved {
    pub(crate) fn new(state: State, rows: Vec<u64>) -> Saved {
        Saved { state, rows }
    }

    pub fn state(&self) -> &State {
        &self.state
    }

    pub(crate) fn rows(&self) -> &[u64] {
        &self.rows
    }

    /// State and rows as words: the state first.
    pub fn words(&self) -> Vec<u64> {
        [&self.state.words[..], &self.rows].concat()
    }

    /// What `words` gave, for a K; refused where the words are no state and the rows that it counts.
    pub fn of_words(slots: usize, words: &[u64]) -> Result<Saved, Error> {
        let refused = Error::Saved { words: words.len() };
        if words.len() < STATE_WORDS {
            return Err(refused);
        }
        let (head, rows) = words.split_at(STATE_WORDS);
        let state = State { words: head.try_into().expect("as many words as a state has") };
        let wanted = state.words[state::ROWS_HELD].checked_mul((ROW_FIXED + slots) as u64);
        if wanted != Some(rows.len() as u64) {
            return Err(refused);
        }
        Ok(Saved::new(state, rows.to_vec()))
    }
}
