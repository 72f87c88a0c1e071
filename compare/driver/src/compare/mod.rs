//! One case through both sides: after every bar and after finish, everything that can be seen must be the same.

mod command;
mod day;
mod ends;
pub mod explain;
mod rules;
mod shrink;

pub use command::{compare, replay};

use oracle::Reading;
use yshturpa::layout::{state, TRADE_WORDS};
use yshturpa::Refusal;

use crate::case::{bar_words, row_words, Case};
use crate::ours::Ours;
use crate::theirs::{Ending, Theirs};
use crate::view::{unlike, Unlike, View, METRICS, NAMES};
use day::same_in_days;
use ends::{depth_agrees, same_ending};
use explain::{Entry, Explained};
use rules::Rules;

/// What of a case is compared, beyond what is always compared.
#[derive(Debug, Clone, Copy)]
pub struct Plan {
    /// Rows that the larger room holds beyond D.
    pub spare: usize,
    /// Rules are asked on every so many-th bar.
    pub ask_every: usize,
}

/// How much was compared.
#[derive(Debug, Clone, Copy, Default)]
pub struct Tally {
    pub bars: u64,
    pub rules: u64,
    pub yes: u64,
    pub trades: u64,
    /// Runs with a lot, and bars that were refused with 16.
    pub lots: u64,
    pub turned_away: u64,
    pub reasons: [u64; 7],
    /// Entries by their order kind, and bars on which one that was due did not come to its level.
    pub entries: [u64; 4],
    pub not_reached: u64,
    pub explained: Explained,
}

/// Where the two sides part.
#[derive(Debug, Clone)]
pub struct Mismatch {
    pub bar: Option<usize>,
    pub against: &'static str,
    pub unlike: Vec<Unlike>,
}

impl Mismatch {
    fn new(bar: Option<usize>, against: &'static str, unlike: Vec<Unlike>) -> Self {
        Self { bar, against, unlike }
    }

    fn one(bar: Option<usize>, against: &'static str, what: &'static str, ours: u64, theirs: u64) -> Self {
        Self::new(bar, against, vec![Unlike { what, ours, theirs }])
    }

    fn refused(bar: Option<usize>, against: &'static str, refusal: Refusal) -> Self {
        Self::one(
            bar,
            against,
            "refused",
            u64::from(refusal.number) << 32 | u64::from(refusal.place),
            0,
        )
    }
}

const PAPER: &str = "the Rust by document 01's reading";
const RUST: &str = "the Rust as it stands";
const LARGER: &str = "the same run with a larger room for rows";
const ROWS: &str = "the rows handed over";
const METRICS_CALL: &str = "the metrics by the call of their own";
const TWICE: &str = "a second finish";
const AWAY: &str = "a bar of too many lots";

/// Compares a case; what was compared, or the first place where the two sides part.
pub fn compare_case(case: &Case, plan: Plan) -> Result<Tally, Mismatch> {
    let mut run = Comparison::new(case, plan)?;
    for i in 0..case.bars.len() {
        run.bar(i)?;
    }
    run.finish()
}

struct Comparison<'a> {
    case: &'a Case,
    plan: Plan,
    tight: Ours,
    larger: Ours,
    paper: Theirs,
    /// Until it parts from us by a listed difference.
    rust: Option<Theirs>,
    rules: Rules<'a>,
    /// The rows of all bars that were taken.
    rows: Vec<u64>,
    /// Whether a sign of a zero has parted the two, by entry 6.
    signs: bool,
    tally: Tally,
}

impl<'a> Comparison<'a> {
    fn new(case: &'a Case, plan: Plan) -> Result<Self, Mismatch> {
        let depth = case.settings.depth;
        depth_agrees(case)?;
        let ours = |rows| Ours::new(case, rows).map_err(|refusal| Mismatch::refused(None, "a fresh run", refusal));
        Ok(Self {
            case,
            plan,
            tight: ours(depth)?,
            larger: ours(depth + plan.spare)?,
            paper: Theirs::new(case, Reading::Paper),
            // The text has no lots.
            rust: (case.settings.lot == 0.0).then(|| Theirs::new(case, Reading::Rust)),
            rules: Rules::new(case),
            rows: Vec::new(),
            signs: false,
            tally: Tally {
                lots: u64::from(case.settings.lot != 0.0),
                ..Tally::default()
            },
        })
    }

    fn bar(&mut self, i: usize) -> Result<(), Mismatch> {
        let bar = &self.case.bars[i];
        let words = bar_words(bar);
        let before = self.tight.view();
        let refused = |refusal| Mismatch::refused(Some(i), PAPER, refusal);
        if self.paper.is_turned_away(bar) {
            return self.turned_away(i, &words);
        }
        self.tight.step(&words).map_err(refused)?;
        self.larger.step(&words).map_err(refused)?;
        self.paper.step(bar).expect("the paper's reading refuses no bar");
        let view = self.tight.view();
        self.against_larger(i, view)?;
        self.row_kept(i)?;
        let parted = unlike(&NAMES, &view.0, &self.paper.view().0);
        self.agree(i, PAPER, parted, view)?;
        self.tally.order(&before, &view);
        self.against_rust(i, before, view)?;
        self.rules.push(bar);
        self.rows.extend(row_words(bar));
        if (i + 1).is_multiple_of(self.plan.ask_every) {
            self.rules.ask(i, &self.tight, &mut self.tally)?;
        }
        self.tally.bars += 1;
        Ok(())
    }

    /// A bar of too many lots is refused with 16 at the bars seen in both rooms, and the run goes on from where it was.
    fn turned_away(&mut self, i: usize, words: &[u64]) -> Result<(), Mismatch> {
        let number = self.tight.state[state::BARS_SEEN];
        for run in [&mut self.tight, &mut self.larger] {
            let before = (run.state, run.rows.clone(), run.equity.clone(), run.trades.clone());
            match run.step(words) {
                Err(Refusal { number: 16, place }) if u64::from(place) == number => {}
                Err(refusal) => return Err(Mismatch::refused(Some(i), AWAY, refusal)),
                Ok(()) => return Err(Mismatch::one(Some(i), AWAY, "refused", 0, 16 << 32 | number)),
            }
            if before != (run.state, run.rows.clone(), run.equity.clone(), run.trades.clone()) {
                return Err(Mismatch::one(Some(i), AWAY, "words changed", 1, 0));
            }
        }
        self.tally.turned_away += 1;
        Ok(())
    }

    fn against_larger(&self, i: usize, view: View) -> Result<(), Mismatch> {
        let parted = unlike(&NAMES, &view.0, &self.larger.view().0);
        match parted.is_empty() {
            true => Ok(()),
            false => Err(Mismatch::new(Some(i), LARGER, parted)),
        }
    }

    /// The newest row is this bar's, in both rooms.
    fn row_kept(&self, i: usize) -> Result<(), Mismatch> {
        let row = row_words(&self.case.bars[i]);
        for run in [&self.tight, &self.larger] {
            let held = run.rows_held();
            if !held.ends_with(&row) {
                let newest = held.len().saturating_sub(row.len());
                let at = held[newest..].iter().zip(&row).position(|(a, b)| a != b);
                let (ours, theirs) = at.map_or((0, 0), |at| (held[newest + at], row[at]));
                return Err(Mismatch::one(Some(i), ROWS, "newest row", ours, theirs));
            }
        }
        Ok(())
    }

    /// Nothing parts the two but, by entry 6, signs of zeros.
    fn agree(&mut self, i: usize, against: &'static str, parted: Vec<Unlike>, view: View) -> Result<(), Mismatch> {
        if parted.is_empty() {
            return Ok(());
        }
        let met = self.signs || explain::met(Entry::ZeroSigns, self.case, i, &view);
        if !(met && explain::are_zero_signs(&parted)) {
            return Err(Mismatch::new(Some(i), against, parted));
        }
        if !self.signs {
            self.tally.explained.count(Entry::ZeroSigns);
        }
        self.signs = true;
        Ok(())
    }

    /// Against the text as it stands: a run parts from ours only on a bar on which it met a listed difference.
    fn against_rust(&mut self, i: usize, before: View, view: View) -> Result<(), Mismatch> {
        let Some(mut rust) = self.rust.take() else {
            return Ok(());
        };
        let parted = match rust.step(&self.case.bars[i]) {
            Ok(()) => explain::but_for_added(unlike(&NAMES, &view.0, &rust.view().0)),
            Err(_) if explain::met(Entry::FundingNotSupplied, self.case, i, &view) => {
                self.tally.explained.count(Entry::FundingNotSupplied);
                return Ok(());
            }
            Err(_) => return Err(Mismatch::one(Some(i), RUST, "refused", 0, 1)),
        };
        if let Some(entry) = explain::parted_by(&parted, self.case, i, &before, &view, &rust.view()) {
            self.tally.explained.count(entry);
            return Ok(());
        }
        self.agree(i, RUST, parted, view)?;
        self.rust = Some(rust);
        Ok(())
    }

    fn finish(mut self) -> Result<Tally, Mismatch> {
        self.rows_agree()?;
        for run in [&self.tight, &self.larger] {
            same_in_days(self.case, self.plan, run)?;
        }
        let refused = |refusal| Mismatch::refused(None, PAPER, refusal);
        let marked = self.tight.newest_point();
        let metrics = self.tight.finish().map_err(refused)?;
        let again = self.larger.finish().map_err(refused)?;
        let called = self.tight.metrics().map_err(refused)?;
        let (state, equity) = (self.tight.state, self.tight.equity.clone());
        let twice = self.tight.finish().map_err(refused)?;
        if (state, &equity) != (self.tight.state, &self.tight.equity) {
            return Err(Mismatch::one(None, TWICE, "words changed", 1, 0));
        }
        for (against, theirs) in [(LARGER, again), (METRICS_CALL, called), (TWICE, twice)] {
            let parted = unlike(&METRICS, &metrics, &theirs);
            if !parted.is_empty() {
                return Err(Mismatch::new(None, against, parted));
            }
        }
        let mut ending = Ending {
            metrics: metrics.to_vec(),
            point: self.tight.newest_point().to_vec(),
            trades: self.tight.state[state::TRADES],
            newest: self
                .tight
                .trades_held()
                .last_chunk::<TRADE_WORDS>()
                .map_or(vec![0; TRADE_WORDS], |t| t.to_vec()),
            fees_paid: self.tight.state[state::FEES_PAID],
        };
        let signs = self.signs;
        same_ending(PAPER, &ending, &self.paper.finish(), signs, &mut self.tally)?;
        if let Some(rust) = self.rust.take() {
            // Entry 9: with the last point as the last bar marked it, the figures are the text's.
            let before = self.tight.metrics_with_last(marked).map_err(refused)?;
            if before != metrics {
                self.tally.explained.count(Entry::LastFee);
            }
            ending.metrics = before.to_vec();
            ending.point = marked.to_vec();
            same_ending(RUST, &ending, &rust.finish(), signs, &mut self.tally)?;
            self.tally.explained.undivided += 1;
        }
        if !(self.tight.rest_untouched() && self.larger.rest_untouched()) {
            return Err(Mismatch::one(None, "what was lent", "words past the lists", 1, 0));
        }
        for trade in self.tight.trades_held().chunks(TRADE_WORDS) {
            self.tally.trades += 1;
            self.tally.reasons[trade[7].min(6) as usize] += 1;
        }
        Ok(self.tally)
    }

    /// Both rooms hold the last rows of those handed over.
    fn rows_agree(&self) -> Result<(), Mismatch> {
        let all = &self.rows;
        for run in [&self.tight, &self.larger] {
            let held = run.rows_held();
            let full = held.len() == all.len().min(run.rows.len());
            if !(full && all.ends_with(held)) {
                return Err(Mismatch::one(
                    None,
                    ROWS,
                    "rows held",
                    held.len() as u64,
                    all.len() as u64,
                ));
            }
        }
        Ok(())
    }
}
