//! What can be asked of a rule table: whether it is accepted, how deep it looks, what falls silent, its steps.

use crate::layout::{HEADER_BYTES, MOST_NODES, STEP_ROOM};
use crate::{calls, Refusal};

/// The four trees of a rule table.
#[derive(Clone, Copy, Debug, PartialEq, Eq, Hash)]
pub enum Tree {
    Entry,
    Exit,
    ShortEntry,
    ShortExit,
}

impl Tree {
    pub const ALL: [Tree; 4] = [Tree::Entry, Tree::Exit, Tree::ShortEntry, Tree::ShortExit];

    pub fn name(self) -> &'static str {
        ["entry", "exit", "short entry", "short exit"][self as usize]
    }
}

/// An accepted table: its nodes, and the rows that its rules need.
#[derive(Clone, Copy, Debug, PartialEq, Eq)]
pub struct Accepted {
    pub nodes: u64,
    pub rows: u64,
}

/// Checks a rule table.
pub fn check(table: &[u8]) -> Result<Accepted, Refusal> {
    let (mut nodes, mut rows) = (0, 0);
    Refusal::of(calls::check(table, &mut nodes, &mut rows))?;
    Ok(Accepted { nodes, rows })
}

/// K, the slots of an accepted table.
pub fn slots_of(table: &[u8]) -> Result<usize, Refusal> {
    check(table).map(|_| usize::from(table[3]))
}

/// How deep a window has to be, and the bytes that its rows take.
#[derive(Clone, Copy, Debug, PartialEq, Eq)]
pub struct Depth {
    pub rows: u64,
    pub bytes: u64,
}

/// The rows that a table's rules need and, for a volatility target, one more than its lookback (0 where sizing is another).
pub fn depth(table: &[u8], lookback: u64) -> Result<Depth, Refusal> {
    let (mut rows, mut bytes) = (0, 0);
    Refusal::of(calls::depth(table, lookback, &mut rows, &mut bytes))?;
    Ok(Depth { rows, bytes })
}

/// The bytes of the dump that is written when the supply drops; 0 for a D or a K that no settings have.
pub fn dump_bytes(depth: u64, slots: u64) -> u64 {
    calls::dump_bytes(slots, depth)
}

/// The tests that answer no over a window of so many rows, whatever the rows hold, by the numbers of their nodes in table order. A
/// test is a comparison, a cross, Between, Rising or Falling. There are none where `rows` is at least what [`check`] says.
pub fn silent(table: &[u8], rows: u64) -> Result<Vec<u64>, Refusal> {
    let (mut list, mut count) = (vec![0; MOST_NODES], 0);
    Refusal::of(calls::silent(table, rows, &mut list, &mut count))?;
    list.truncate(count as usize);
    Ok(list)
}

/// The steps of one tree of a table; none where it is absent.
pub fn translate(table: &[u8], tree: Tree) -> Result<Vec<u8>, Refusal> {
    let mut room = vec![0; STEP_ROOM * table.len().saturating_sub(HEADER_BYTES).min(MOST_NODES * 16) / 16];
    let mut used = 0;
    Refusal::of(calls::translate(table, tree as u64, &mut room, &mut used))?;
    room.truncate(used as usize);
    Ok(room)
}

#[cfg(test)]
mod tests {
    use super::*;

    #[test]
    fn the_dump_of_the_papers_example_is_1264_bytes() {
        assert_eq!(dump_bytes(14, 2), 1264);
    }
}
