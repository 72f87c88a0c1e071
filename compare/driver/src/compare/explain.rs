//! The entries of docs/DIFFERENCES.md, and whether a bar met one.
//!
//! Up to the bar on which the two part, both hold the same; so what parts them was met on that very bar.

use oracle::lists::runs::Bar;

use crate::case::Case;
use crate::view::{Unlike, View, NOT_THE_RUSTS};

/// The entries that can part a run, under their numbers.
#[derive(Debug, Clone, Copy, PartialEq, Eq)]
pub enum Entry {
    AbsentShortExit = 1,
    WorkingExit = 2,
    FundingNotSupplied = 4,
    ProfitFactor = 5,
    ZeroSigns = 6,
    LastFee = 9,
    Dust = 10,
    StopLimitHeldBack = 13,
}

/// How many runs each entry parted; entries 6 and 9 do not end a comparison.
#[derive(Debug, Clone, Copy, Default)]
pub struct Explained {
    entries: [u64; 14],
    /// Runs in which the text as it stands agreed to the end.
    pub undivided: u64,
}

impl Explained {
    pub fn count(&mut self, entry: Entry) {
        self.entries[entry as usize] += 1;
    }

    pub fn add(&mut self, other: &Self) {
        self.entries.iter_mut().zip(other.entries).for_each(|(a, b)| *a += b);
        self.undivided += other.undivided;
    }

    pub fn text(&self) -> String {
        let each: Vec<String> = [1, 2, 4, 5, 6, 9, 10, 13]
            .map(|n| format!("{n}: {}", self.entries[n]))
            .to_vec();
        each.join(", ")
    }
}

/// Whether bar `i` met what the entry speaks of; `view` is what is seen of our run after it.
pub fn met(entry: Entry, case: &Case, i: usize, view: &View) -> bool {
    let bar = &case.bars[i];
    let decides = i >= case.settings.warmup as usize;
    match entry {
        Entry::AbsentShortExit => {
            decides && case.table.trees[3].is_none() && view.in_position() && view.float("qty") < 0.0
        }
        Entry::WorkingExit => {
            // An exit order decided on this bar has the whole delay; one that worked before has counted down.
            let counted_down = view.word("order delay") < case.settings.delay.into();
            decides && view.in_position() && view.word("order") == 3 && counted_down
        }
        Entry::FundingNotSupplied => case.settings.funding && bar.funding.is_none(),
        Entry::ProfitFactor | Entry::LastFee | Entry::Dust | Entry::StopLimitHeldBack => false,
        Entry::ZeroSigns => has_a_zero_price(bar),
    }
}

pub fn has_a_zero_price(bar: &Bar) -> bool {
    let c = &bar.candle;
    [c.open, c.high, c.low].contains(&0.0)
}

/// Entry 6 shows in the favourable extreme and in the price of an exit, and in nothing but their sign.
pub fn are_zero_signs(parted: &[Unlike]) -> bool {
    let sign = |one: &Unlike| matches!(one.what, "extreme" | "trade exit price") && one.is_a_sign_of_zero();
    parted.iter().all(sign)
}

/// What an entry that is booked, and what is decided after it, shows in.
const BOOKED: [&str; 15] = [
    "equity",
    "order",
    "order delay",
    "order kind",
    "order level",
    "order limit",
    "entered",
    "entry bar",
    "cash",
    "qty",
    "entry price",
    "entry time",
    "entry fee",
    "fees paid",
    "extreme",
];

/// Entry 10: on bar `i` the text has booked an entry of at most EPS, and here the account is flat with no entry bar.
fn is_dust(parted: &[Unlike], i: usize, ours: &View, theirs: &View) -> bool {
    let entered = theirs.word("entered") == 1 && theirs.word("entry bar") == i as u64;
    let dust = theirs.float("qty") != 0.0 && !theirs.in_position();
    let flat = ours.word("entered") == 0 && !ours.in_position();
    entered && dust && flat && parted.iter().all(|one| BOOKED.contains(&one.what))
}

/// The words of the working order.
fn order(view: &View) -> [u64; 5] {
    ["order", "order delay", "order kind", "order level", "order limit"].map(|name| view.word(name))
}

/// Entry 13: a stop-limit that was due works on in the text, although the bar reached its stop at a price within the limit, as the whole bar
/// but its open is past the limit. Here it was filled, and may have been left on the same bar.
fn is_held_back(parted: &[Unlike], bar: &Bar, before: &View, theirs: &View) -> bool {
    let c = &bar.candle;
    let (stop, limit) = (before.float("order level"), before.float("order limit"));
    let held_back = match before.word("order") {
        1 => c.high >= stop && c.open.max(stop) <= limit && c.low > limit,
        2 => c.low <= stop && c.open.min(stop) >= limit && c.high < limit,
        _ => false,
    };
    let due = before.word("order kind") == 3 && before.word("order delay") == 0;
    let shows = |one: &Unlike| BOOKED.contains(&one.what) || one.what.starts_with("trade");
    due && held_back && order(before) == order(theirs) && parted.iter().all(shows)
}

/// The entry that parted the text from us on bar `i`, where one was met; `before` is what was seen before it, `view` and `theirs` after it.
/// Deciding shows in the order alone.
pub fn parted_by(parted: &[Unlike], case: &Case, i: usize, before: &View, view: &View, theirs: &View) -> Option<Entry> {
    if is_held_back(parted, &case.bars[i], before, theirs) {
        return (!parted.is_empty()).then_some(Entry::StopLimitHeldBack);
    }
    if is_dust(parted, i, view, theirs) {
        return Some(Entry::Dust);
    }
    let (decided, other): (Vec<_>, Vec<_>) = parted
        .iter()
        .cloned()
        .partition(|one| matches!(one.what, "order" | "order delay"));
    if decided.is_empty() || !are_zero_signs(&other) {
        return None;
    }
    [Entry::AbsentShortExit, Entry::WorkingExit]
        .into_iter()
        .find(|&entry| met(entry, case, i, view))
}

/// Request 6 adds words that the text as it stands has not.
pub fn but_for_added(parted: Vec<Unlike>) -> Vec<Unlike> {
    let both = parted.into_iter().filter(|one| !NOT_THE_RUSTS.contains(&one.what));
    both.collect()
}

/// Entry 5: a profit factor of +0.0 here and −0.0 there.
pub fn is_profit_factor(one: &Unlike) -> bool {
    one.what == "profit_factor" && one.ours == 0 && one.theirs == (-0.0f64).to_bits()
}
