//! One rule by itself: asked over rows and a position, by its tree or by its steps.

use crate::{calls, slots_of, Error, Position, Refusal, Rows, Tree};

/// Whether a tree of a table says yes at the newest row; no where the tree is absent.
pub fn rule(table: &[u8], tree: Tree, rows: &Rows, position: &Position) -> Result<bool, Error> {
    let slots = slots_of(table)?;
    if rows.slots() != slots {
        return Err(Error::Slots { given: rows.slots(), table: slots });
    }
    let mut answer = 0;
    Refusal::of(calls::rule(table, tree as u64, rows.words(), position.words(), &mut answer))?;
    Ok(answer != 0)
}

/// What a list of steps answered, and how many of them were visited.
#[derive(Clone, Copy, Debug, PartialEq, Eq)]
pub struct Ran {
    pub answer: bool,
    pub visits: u64,
}

/// Runs a list of steps over all the rows handed over; no step of it looks back `depth` bars or more.
pub fn run(steps: &[u8], rows: &Rows, depth: u64, position: &Position) -> Result<Ran, Error> {
    let (mut answer, mut visits) = (0, 0);
    let slots = rows.slots() as u64;
    Refusal::of(calls::run(steps, rows.words(), slots, depth, position.words(), &mut answer, &mut visits))?;
    Ok(Ran { answer: answer != 0, visits })
}
