//! A whole run in calls over many bars: word for word what a call for each bar leaves.

use yshturpa::layout::state;
use yshturpa::Refusal;

use super::{Mismatch, Plan};
use crate::case::{bar_words, Case};
use crate::ours::Ours;
use crate::records;

const DAYS: &str = "the same run in calls over many bars";

/// The word of a bar's close.
const CLOSE: usize = 4;

const NOT_A_NUMBER: u64 = 0x7ff8_0000_0000_0000;

/// The bars of a case, with one that is refused with 11 put in before the first and before every so many-th.
fn with_bad_bars(case: &Case, every: usize) -> Vec<Vec<u64>> {
    let mut bars = Vec::new();
    let bad = |bar: &[u64]| {
        let mut bar = bar.to_vec();
        bar[CLOSE] = NOT_A_NUMBER;
        bar
    };
    for (i, bar) in case.bars.iter().map(bar_words).enumerate() {
        if i.is_multiple_of(every) {
            bars.push(bad(&bar));
        }
        bars.push(bar);
    }
    bars
}

/// The run `single`, which was made bar after bar, made anew in calls over all the bars that are left: a call stops at a bar that is
/// refused, with the number and place of its own step, and the next goes on behind it.
pub fn same_in_days(case: &Case, plan: Plan, single: &Ours) -> Result<(), Mismatch> {
    let width = records::row_words(case.table.slots);
    let refused = |refusal| Mismatch::refused(None, DAYS, refusal);
    let mut run = Ours::new(case, single.rows.len() / width).map_err(refused)?;
    let bars = with_bad_bars(case, plan.ask_every + plan.spare);
    let (list, words) = (bars.concat(), records::bar_words(case.table.slots));
    let mut next = 0;
    while next < bars.len() {
        let seen = run.state[state::BARS_SEEN];
        let (done, answer) = run.steps(&list[next * words..]);
        if run.state[state::BARS_SEEN] != seen + done as u64 {
            return Err(Mismatch::one(
                None,
                DAYS,
                "bars done",
                done as u64,
                run.state[state::BARS_SEEN] - seen,
            ));
        }
        next += done;
        match answer {
            Ok(()) if next == bars.len() => {}
            Ok(()) => return Err(Mismatch::one(None, DAYS, "bars done", next as u64, bars.len() as u64)),
            Err(Refusal { number: 11, place })
                if bars[next][CLOSE] == NOT_A_NUMBER && u64::from(place) == run.state[state::BARS_SEEN] =>
            {
                next += 1
            }
            Err(Refusal { number: 16, place }) if u64::from(place) == run.state[state::BARS_SEEN] => next += 1,
            Err(refusal) => return Err(Mismatch::refused(None, DAYS, refusal)),
        }
    }
    let same = [
        ("state", run.state[..] == single.state[..]),
        ("rows", run.rows == single.rows),
        ("equity", run.equity == single.equity),
        ("trades", run.trades == single.trades),
    ];
    match same.into_iter().find(|(_, same)| !same) {
        Some((what, _)) => Err(Mismatch::one(None, DAYS, what, 1, 0)),
        None => Ok(()),
    }
}
