//! What is compared before the first bar and after the last: the depth of the window, and the end of a run.

use oracle::spec::Sizing;
use yshturpa::layout::{MOST_NODES, TRADE_WORDS};
use yshturpa::{calls, Refusal};

use super::explain::{self, Entry};
use super::{Mismatch, Tally, RUST};
use crate::case::Case;
use crate::records;
use crate::theirs::{self, Ending};
use crate::view::{unlike, METRICS, NAMES};

const DEPTH: &str = "the depth of the window";

/// The depth that the call gives is the original's, the bytes are those of so many rows, and no test of the rules falls silent in them.
pub fn depth_agrees(case: &Case) -> Result<(), Mismatch> {
    let table = case.table.bytes();
    let (mut nodes, mut rows, mut deep, mut bytes, mut silent) = (0, 0, 0, 0, u64::MAX);
    let refused = |refusal| Mismatch::refused(None, DEPTH, refusal);
    Refusal::of(calls::check(&table, &mut nodes, &mut rows)).map_err(refused)?;
    let lookback = match case.settings.sizing {
        Sizing::VolTarget { lookback, .. } => lookback.into(),
        _ => 0,
    };
    Refusal::of(calls::depth(&table, lookback, &mut deep, &mut bytes)).map_err(refused)?;
    Refusal::of(calls::silent(&table, rows, &mut [0; MOST_NODES], &mut silent)).map_err(refused)?;
    let theirs = theirs::depth(case) as u64;
    let width = records::row_words(case.table.slots) as u64;
    let parted = unlike(
        &["nodes", "rows of the rules", "rows", "bytes", "silent tests"],
        &[nodes, rows, deep, bytes, silent],
        &[
            (table.len() / 16 - 1) as u64,
            case.table.depth() as u64,
            theirs,
            theirs * width * 8,
            0,
        ],
    );
    match parted.is_empty() {
        true => Ok(()),
        false => Err(Mismatch::new(None, DEPTH, parted)),
    }
}

/// A run ends alike; against the text as it stands a profit factor of −0.0 is entry 5's, and `signs` says that entry 6 was met.
pub fn same_ending(
    against: &'static str,
    ours: &Ending,
    theirs: &Ending,
    signs: bool,
    tally: &mut Tally,
) -> Result<(), Mismatch> {
    let mut parted = unlike(&METRICS, &ours.metrics, &theirs.metrics);
    parted.extend(unlike(&["point time", "equity"], &ours.point, &theirs.point));
    parted.extend(unlike(
        &NAMES[NAMES.len() - TRADE_WORDS..],
        &ours.newest,
        &theirs.newest,
    ));
    parted.extend(unlike(
        &["trades", "fees paid"],
        &[ours.trades, ours.fees_paid],
        &[theirs.trades, theirs.fees_paid],
    ));
    if against == RUST {
        parted = explain::but_for_added(parted);
    }
    if against == RUST && parted.iter().any(explain::is_profit_factor) {
        tally.explained.count(Entry::ProfitFactor);
        parted.retain(|one| !explain::is_profit_factor(one));
    }
    match parted.is_empty() || signs && explain::are_zero_signs(&parted) {
        true => Ok(()),
        false => Err(Mismatch::new(None, against, parted)),
    }
}
