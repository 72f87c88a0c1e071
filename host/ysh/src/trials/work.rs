//! The runs, done on all cores.

use std::collections::BTreeMap;
use std::path::PathBuf;

use rayon::ThreadPoolBuilder;

use super::asked::{How, Part, Trials};
use super::document::{Document, Parts};
use super::inputs::{named, unfit, Inputs, Named};
use super::journal::Journal;
use super::row::{Came, Figures, Row};
use crate::bars::Way;
use crate::files::{files, Found};
use crate::problem::Problem;
use crate::progress;
use crate::run::outcome::Outcome;
use crate::run::Ready;
use crate::settings_file::SettingsFile;

/// The runs that were asked for.
pub struct Work {
    strategies: Named,
    bars: Named,
    how: How,
    pub inputs: Inputs,
    pub left_out: Vec<String>,
}

impl Work {
    pub fn of(asked: &Trials) -> Result<Work, Problem> {
        let Found { files, left_out } = files(&asked.files, asked.recursive)?;
        if let Some(problem) = unfit(&files).or_else(|| unfit(&asked.bars)) {
            return Err(problem);
        }
        let (strategies, bars) = (named(files), named(asked.bars.iter().cloned()));
        let inputs = Inputs::of(&strategies, &bars, &asked.how);
        Ok(Work { strategies, bars, how: asked.how.clone(), inputs, left_out })
    }

    /// The files that are read.
    pub fn read(&self) -> impl Iterator<Item = PathBuf> + '_ {
        let beside = self.strategies.values().map(|path| SettingsFile::beside(path));
        self.strategies.values().cloned().chain(beside).chain(self.bars.values().cloned())
    }

    /// One of the runs, by its number.
    fn row(&self, run: u64) -> Row {
        let (strategy, bars) = self.inputs.files_of(run);
        let outcome = match self.figures(&strategy.file, &bars.file) {
            Ok(figures) => Came::Ran(Box::new(figures)),
            Err(problem) => Came::Refused(problem.into()),
        };
        Row { run, file: strategy.file.clone(), bars_file: bars.file.clone(), outcome }
    }

    fn figures(&self, strategy: &str, bars: &str) -> Result<Figures, Problem> {
        let over = self.how.over(self.strategies[strategy].clone(), self.bars[bars].clone());
        let way = Way { on_refusal: over.on_refusal, after: None, until: None };
        Figures::of(&Outcome::of(Ready::of(&over)?, way, false)?)
    }
}

/// Every run of a part that is not done yet; each is kept in the journal as soon as it is done.
pub fn done(
    work: &Work,
    part: Part,
    threads: Option<u16>,
    journal: Option<(Journal, Vec<Row>)>,
) -> Result<Document, Problem> {
    let (journal, before) = journal.map_or((None, Vec::new()), |(journal, rows)| (Some(journal), rows));
    let mut rows: BTreeMap<u64, Row> = before.into_iter().map(|row| (row.run, row)).collect();
    let open: Vec<u64> = (0..work.inputs.runs()).filter(|run| part.has(*run) && !rows.contains_key(run)).collect();
    let kept = |run: &u64| {
        let row = work.row(*run);
        journal.as_ref().map_or(Ok(()), |journal| journal.keep(&row)).map(|()| row)
    };
    let pool = ThreadPoolBuilder::new().num_threads(threads.unwrap_or(0).into()).build();
    let pool = pool.map_err(|error| Problem::input("--threads", "", error.to_string()))?;
    for row in pool.install(|| progress::each_of("runs", &open, kept)) {
        let row = row?;
        rows.insert(row.run, row);
    }
    let runs = rows.into_values().filter(|row| part.has(row.run)).collect();
    Document::new(work.inputs.clone(), Parts::new(part.of, vec![part.part]), runs)
}
