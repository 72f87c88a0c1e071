//! The answer: each client by itself, the boxes that hold them, and what fits.

use std::path::{Path, PathBuf};

use yshturpa::Refusal;

use super::against::Against;
use super::boxes::{Boxed, Verdict};
use super::given::Given;
use super::plan::Written;
use super::sheet::Sheet;
use super::units::Time;
use crate::commands::depth::why;
use crate::commands::short::{silent_tests, volatility, Silent};
use crate::problem::Problem;
use crate::source::{Size, Source};

/// One file: what its dump is and takes, and what a time that is there makes of it.
#[derive(Clone, Debug)]
pub struct Client {
    pub file: String,
    pub path: PathBuf,
    pub doubts: Vec<String>,
    pub notes: Vec<String>,
    /// The rules, and whether they came as a table.
    pub table: Vec<u8>,
    pub is_table: bool,
    /// A table whose sizing nobody told: its D may be too small.
    pub unknown_sizing: bool,
    /// Each file that was read for it, and its SHA-256.
    pub digests: Vec<(String, String)>,
    pub size: Size,
    /// How far back its rules reach, and the lookback of a volatility target, 0 where there is none.
    pub reach: u64,
    pub lookback: u64,
    pub why: String,
    /// One dump; how long it takes typically, where the longest time decides; and the whole time of a box that has this client alone.
    pub written: Written,
    /// The pages of its area, where there are pages.
    pub area: Option<u64>,
    pub typical: Option<Time>,
    pub alone: Time,
    pub fit: Option<Fit>,
}

/// What a time that is there has room for.
#[derive(Clone, Debug)]
pub struct Fit {
    pub fits: bool,
    /// The deepest window whose dumps fit; 0 where not even one row does.
    pub rows: u64,
    pub silent: Vec<Silent>,
    pub volatility: Option<String>,
}

/// The whole answer.
pub struct Report {
    pub given: Given,
    pub clients: Vec<Client>,
    pub boxes: Vec<Boxed>,
    pub problems: Vec<Problem>,
    /// What folders left out, and what was counted once or twice.
    pub left_out: Vec<String>,
    pub against: Option<Against>,
    pub sheet: Sheet,
}

impl Client {
    pub fn of(path: &Path, source: Source, given: &Given) -> Result<Client, Problem> {
        let refused = |refusal: Refusal| source.refused(refusal);
        let size = source.size()?;
        let written = given.plan.write(size.dump);
        let alone = given.total(written.time * given.copies());
        Ok(Client {
            path: path.to_owned(),
            is_table: source.strategy.is_none(),
            unknown_sizing: source.unknown_sizing(),
            size,
            reach: yshturpa::check(&source.table).map_err(refused)?.rows - 1,
            lookback: source.lookback,
            why: why(&source).map_err(refused)?,
            written,
            area: given.plan.area(size.dump),
            typical: given.typical_plan().map(|plan| plan.write(size.dump).time),
            alone,
            fit: given.have.map(|have| Fit::of(&source, given, have, alone)).transpose()?,
            file: source.file,
            doubts: source.doubts,
            notes: source.notes,
            table: source.table,
            digests: source.digests,
        })
    }
}

impl Fit {
    fn of(source: &Source, given: &Given, have: Time, alone: Time) -> Result<Fit, Problem> {
        let rows = given.rows_within(have, source.forest.slots as u64);
        let fits = alone <= have;
        let silent = if fits || rows == 0 { Vec::new() } else { silent_tests(source, rows)? };
        let volatility = if fits || rows == 0 { None } else { volatility(source, rows) };
        Ok(Fit { fits, rows, silent, volatility })
    }
}

impl Report {
    /// The client that takes longest by itself; of several the first.
    pub fn worst(&self) -> Option<&Client> {
        self.clients.iter().rev().max_by_key(|client| client.alone)
    }

    /// The box that takes longest; of several the first.
    pub fn worst_box(&self) -> Option<&Boxed> {
        self.boxes.iter().rev().max_by_key(|one| one.total)
    }

    pub fn clients_of(&self, one: &Boxed) -> &[Client] {
        &self.clients[one.clients.clone()]
    }

    /// The boxes that do not fit in the time that is there.
    pub fn short_boxes(&self) -> Vec<&Boxed> {
        let short = |one: &&Boxed| self.given.have.is_some_and(|have| matches!(one.verdict(have), Verdict::Short(_)));
        self.boxes.iter().filter(short).collect()
    }

    /// Where a time is there: how many clients fit in it, each by itself.
    pub fn fitting(&self) -> usize {
        self.clients.iter().filter(|client| client.fit.as_ref().map_or(true, |fit| fit.fits)).count()
    }

    pub fn lacking(&self) -> impl Iterator<Item = (&Client, &Fit)> {
        self.clients.iter().filter_map(|client| Some((client, client.fit.as_ref().filter(|fit| !fit.fits)?)))
    }

    /// Whether the boxes have names: they were told one by one.
    pub fn named(&self) -> bool {
        self.given.dumps.is_none() && self.boxes.iter().any(|one| !one.name.is_empty())
    }
}
