//! What the original has and the box has not, and what is here but not quite the same. Each is one row: a request that carries
//! something over moves its row.

use super::spec::{FillTiming, OrderType, Slippage, Strategy};
use super::Fault;

/// A part of the format, by its path in the document and its name there.
struct Row {
    path: &'static str,
    name: &'static str,
    there: fn(&Strategy) -> bool,
    why: &'static str,
}

/// Refused: the box would do something else than the document says.
const LACKING: [Row; 2] = [
    Row {
        path: "costs.slippage.type",
        name: "spread",
        there: |s| s.costs.slippage == Slippage::Spread,
        why: "a box has no order book; fixed_bps or volume_impact was expected",
    },
    Row {
        path: "execution.fill_timing",
        name: "close",
        there: |s| s.execution.fill_timing == FillTiming::Close,
        why: "a box fills at the next open; next_open was expected",
    },
];

/// Told: carried over, with a difference that docs/DIFFERENCES.md describes, or of no effect.
const DIFFERENT: [Row; 5] = [
    Row {
        path: "execution.latency_bars",
        name: "an exit order with latency",
        there: |s| s.execution.latency_bars > 0,
        why: "an exit order that waits is kept; the original decides it anew on every bar (docs/DIFFERENCES.md, 2)",
    },
    Row {
        path: "execution.order_type",
        name: "stop_limit",
        there: |s| s.execution.order_type == OrderType::StopLimit,
        why: "on a bar whose low is over its open, or whose high is under it, one fills here that works on in the original \
              (docs/DIFFERENCES.md, 13)",
    },
    Row {
        path: "costs.funding",
        name: "funding",
        there: |s| s.costs.funding,
        why: "a bar without funding charges nothing; the original refuses it (docs/DIFFERENCES.md, 4)",
    },
    Row {
        path: "costs.maker_bps",
        name: "the maker fee",
        there: |s| s.costs.maker_bps != 0.0 && s.execution.order_type != OrderType::Limit,
        why: "only a limit order's entry pays it, so it has no effect, as in the original",
    },
    Row {
        path: "short_exit",
        name: "the short exit",
        there: |s| s.short_entry.is_some() && s.short_exit.is_none(),
        why: "left out beside a short entry, which makes it the exit rule, as in the original (--absent-short-exit leaves it out)",
    },
];

/// The first part of a strategy that has no counterpart.
pub fn lacking(strategy: &Strategy) -> Result<(), Fault> {
    match LACKING.iter().find(|row| (row.there)(strategy)) {
        None => Ok(()),
        Some(row) => Err(Fault::new(row.path, format!("{:?} has no counterpart here: {}", row.name, row.why))),
    }
}

/// What is to be said of a strategy that is carried over.
pub fn differences(strategy: &Strategy) -> Vec<String> {
    let rows = DIFFERENT.iter().filter(|row| (row.there)(strategy));
    rows.map(|row| format!("{}: {}: {}", row.path, row.name, row.why)).collect()
}
