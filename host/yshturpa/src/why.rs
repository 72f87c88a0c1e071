//! Why a rule said what it said: the chain of nodes from the root of a tree to what decided.

use std::ops::Range;

use crate::layout::{WHY_LINES, WHY_WORDS};
use crate::{calls, slots_of, Error, Position, Refusal, Rows, Tree};

/// Words of the lines of one row.
const PLACE: usize = WHY_LINES * WHY_WORDS;

/// Rows that are asked in one call: their lines take half a megabyte, and the check of the table is little beside the answers.
const PART: usize = 256;

/// One node of the chain: its number in the table, what it says, and by what.
#[derive(Clone, Copy, Debug, PartialEq)]
pub struct WhyLine {
    pub node: usize,
    pub answer: bool,
    pub by: By,
}

/// What decided a node.
#[derive(Clone, Copy, Debug, PartialEq)]
pub enum By {
    /// All, Any or Not: the node below it that the next line is about, or all of them where there is no next line.
    Below,
    /// The values, the first so many of the four: a comparison's two; a cross's two now, then the two before; Rising's and Falling's now
    /// and then; Between's value, low and high.
    Values([f64; 4], usize),
    /// The first leaf that has no value, and how many bars back it was looked for.
    Missing { leaf: usize, back: u64 },
    /// A cross at the first bar.
    FirstBar,
    /// Rising or Falling over more bars than there are.
    TooFewBars,
    /// Whether there is a position.
    Position,
    /// The bars since the entry.
    Since(u64),
    /// Bars since entry, where there is no position or no entry bar.
    NoEntry,
}

impl WhyLine {
    fn of(words: &[u64]) -> WhyLine {
        let by = match words[2] {
            0 => By::Below,
            1 => By::Values([4, 5, 6, 7].map(|word| f64::from_bits(words[word])), words[3].min(4) as usize),
            2 => By::Missing { leaf: words[4] as usize, back: words[5] },
            3 => By::FirstBar,
            4 => By::TooFewBars,
            5 => By::Position,
            6 => By::Since(words[4]),
            _ => By::NoEntry,
        };
        WhyLine { node: words[0] as usize, answer: words[1] != 0, by }
    }
}

/// The chain of a tree at the newest row, the root first; no lines where the tree is absent.
pub fn why(table: &[u8], tree: Tree, rows: &Rows, position: &Position) -> Result<Vec<WhyLine>, Error> {
    why_within(table, tree, rows, 0..rows.len(), position)
}

/// The chain over some of the rows, the last of them being the newest.
pub fn why_within(
    table: &[u8],
    tree: Tree,
    rows: &Rows,
    places: Range<usize>,
    position: &Position,
) -> Result<Vec<WhyLine>, Error> {
    same_slots(table, rows)?;
    let (mut lines, mut count) = ([0; PLACE], 0);
    let answer = calls::why(table, tree as u64, rows.some(places), position.words(), &mut lines, &mut count);
    Refusal::of(answer)?;
    Ok(chain(&lines, count))
}

/// The chains of a tree at row `first` and at those after it, one for each position: what [`why`] gives over the rows up to
/// that one, with that position. The table is checked once for many rows. Rows that are not there are refused with 13.
pub fn why_over(
    table: &[u8],
    tree: Tree,
    rows: &Rows,
    first: usize,
    positions: &[Position],
) -> Result<Vec<Vec<WhyLine>>, Error> {
    same_slots(table, rows)?;
    if rows.len().saturating_sub(first) < positions.len() {
        return Err(Refusal { number: 13, place: 0 }.into());
    }
    let most = positions.len().min(PART);
    let (mut lines, mut counts) = (vec![0; most * PLACE], vec![0; most]);
    let mut chains = Vec::with_capacity(positions.len());
    for asked in positions.chunks(PART) {
        let upto = rows.some(0..first + chains.len() + asked.len());
        let words: Vec<u64> = asked.iter().flat_map(Position::words).collect();
        Refusal::of(calls::why_over(table, tree as u64, upto, &words, &mut lines, &mut counts))?;
        let places = lines.chunks_exact(PLACE).zip(&counts).take(asked.len());
        chains.extend(places.map(|(place, count)| chain(place, *count)));
    }
    Ok(chains)
}

fn same_slots(table: &[u8], rows: &Rows) -> Result<(), Error> {
    let slots = slots_of(table)?;
    if rows.slots() != slots {
        return Err(Error::Slots { given: rows.slots(), table: slots });
    }
    Ok(())
}

fn chain(lines: &[u64], count: u64) -> Vec<WhyLine> {
    lines.chunks_exact(WHY_WORDS).take(count as usize).map(WhyLine::of).collect()
}
