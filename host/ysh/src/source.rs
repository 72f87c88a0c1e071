//! What a FILE is: a rule table with the settings beside it, or a strategy.

use std::path::Path;

use yshturpa::layout::{MARK, MOST_DEPTH};
use yshturpa::{depth, dump_bytes, Depth, Refusal};

use crate::cli::Reading;
use crate::columns::grouped;
use crate::compile::{rules, Choices, Rules};
use crate::files::{bytes_of, name_of, text_of};
use crate::holdup::sheet::digest;
use crate::problem::Problem;
use crate::settings_file::SettingsFile;
use crate::strategy::{self, counterpart, Strategy};
use crate::table::Forest;

/// A table, from whichever file it came.
#[derive(Clone, Debug)]
pub struct Source {
    pub file: String,
    pub table: Vec<u8>,
    pub forest: Forest,
    /// The slots' names; empty where none are known.
    pub names: Vec<String>,
    /// Where in a strategy each node comes from; empty for a table.
    pub paths: Vec<String>,
    /// Of a volatility target; 0 where sizing is another.
    pub lookback: u64,
    /// The window that table and lookback need.
    needed: Depth,
    pub strategy: Option<Strategy>,
    /// What stands beside a table.
    pub settings: Option<SettingsFile>,
    /// What may make the answer another than was meant; an error where reading is strict.
    pub doubts: Vec<String>,
    pub notes: Vec<String>,
    /// Each file that was read, and its SHA-256.
    pub digests: Vec<(String, String)>,
}

/// The window and the dump of a table.
#[derive(Clone, Copy, Debug, PartialEq, Eq)]
pub struct Size {
    pub rows: u64,
    pub slots: u64,
    pub window: u64,
    pub dump: u64,
}

impl Source {
    /// Reads a file. A lookback that is given is for a table without settings.
    pub fn read(path: &Path, reading: &Reading) -> Result<Source, Problem> {
        Source::read_with(path, reading, Choices::default())
    }

    /// Reads a file; a strategy with what it leaves to choose.
    pub fn read_with(path: &Path, reading: &Reading, choices: Choices) -> Result<Source, Problem> {
        let file = name_of(path);
        let bytes = bytes_of(path)?;
        let own = (file.clone(), digest(&bytes));
        let mut source = match bytes.starts_with(&MARK) || path.extension().is_some_and(|end| end == "rtb") {
            true => Source::of_table(path, bytes, reading.lookback),
            false => Source::of_strategy(&file, &text_of(&file, bytes)?, choices),
        }?;
        source.digests.insert(0, own);
        source.held_to(reading.strict)
    }

    /// Where reading is strict, a doubt is an error.
    pub fn held_to(self, strict: bool) -> Result<Source, Problem> {
        match self.doubts.first() {
            Some(doubt) if strict => Err(Problem::input(&self.file, "", format!("{doubt} (--strict)"))),
            _ => Ok(self),
        }
    }

    pub fn of_strategy(file: &str, text: &str, choices: Choices) -> Result<Source, Problem> {
        let read = strategy::read(text).map_err(|fault| Problem::fault(file, fault))?;
        let Rules { table, names, paths } =
            rules(&read.strategy, choices).map_err(|stopped| Problem::of(file, stopped))?;
        let doubts = read.ignored.iter().map(|path| format!("{path}: nothing reads this key, and it has no effect"));
        let mut notes = counterpart::differences(&read.strategy);
        notes.extend(unread(&read.strategy, &names));
        let lookback = read.strategy.lookback();
        let source = Source::new(file, table, names, paths, lookback)?;
        Ok(Source { strategy: Some(read.strategy), doubts: doubts.collect(), notes, ..source })
    }

    fn of_table(path: &Path, table: Vec<u8>, lookback: Option<u64>) -> Result<Source, Problem> {
        let file = name_of(path);
        let settings = name_of(&SettingsFile::beside(path));
        let (beside, digests) = match SettingsFile::read(path)? {
            Some((beside, text)) => (Some(beside), vec![(settings.clone(), digest(text.as_bytes()))]),
            None => (None, Vec::new()),
        };
        let (names, lookback, known) = match &beside {
            Some(file) => (file.slots.clone(), file.lookback(), true),
            None => (Vec::new(), lookback.unwrap_or(0), lookback.is_some()),
        };
        let mut source = Source::new(&file, table, names, Vec::new(), lookback)?;
        if let Some(beside) = &beside {
            fitting(&source, beside).map_err(|(place, text)| Problem::input(&settings, place, text))?;
            if beside.table_sha256.is_none() {
                let text = "it does not say which table it belongs to; ysh compile writes that now";
                source.notes.push(format!("{settings}: {text}"));
            }
        }
        if !known {
            let text = "sizing is taken to be no volatility target, so D may be too small";
            source.doubts.push(format!("there is no {settings}: {text}"));
        }
        source.settings = beside;
        source.digests = digests;
        Ok(source)
    }

    /// A table whose sizing nobody told: its D may be too small.
    pub fn unknown_sizing(&self) -> bool {
        self.strategy.is_none() && self.settings.is_none() && !self.doubts.is_empty()
    }

    fn new(
        file: &str,
        table: Vec<u8>,
        names: Vec<String>,
        paths: Vec<String>,
        lookback: u64,
    ) -> Result<Source, Problem> {
        let forest = Forest::of(&table).map_err(|refusal| Problem::refused(file, refusal))?;
        let needed = depth(&table, lookback).map_err(|refusal| {
            let place = if paths.is_empty() { "a lookback of" } else { "sizing.lookback," };
            Problem { place: format!("{place} {lookback}"), ..Problem::refused(file, refusal) }
        })?;
        Ok(Source {
            file: file.to_owned(),
            table,
            forest,
            names,
            paths,
            lookback,
            needed,
            strategy: None,
            settings: None,
            doubts: Vec::new(),
            notes: Vec::new(),
            digests: Vec::new(),
        })
    }

    /// The window that a box keeps: what the settings beside a table say, else what table and lookback need.
    pub fn size(&self) -> Result<Size, Problem> {
        let window = match self.more_rows() {
            // A lookback of so many rows less one asks the library for the bytes of that window.
            Some(rows) => depth(&self.table, rows - 1).map_err(|refusal| self.refused(refusal))?,
            None => self.needed,
        };
        let slots = self.forest.slots as u64;
        Ok(Size { rows: window.rows, slots, window: window.bytes, dump: dump_bytes(window.rows, slots) })
    }

    /// The rows of the settings, where these are more than table and lookback need.
    pub fn more_rows(&self) -> Option<u64> {
        let rows = self.settings.as_ref()?.depth as u64;
        (rows > self.needed.rows).then_some(rows)
    }

    pub fn refused(&self, refusal: Refusal) -> Problem {
        Problem::refused(&self.file, refusal)
    }
}

/// What of the settings does not go with their table: the place, and what was expected there.
fn fitting(source: &Source, settings: &SettingsFile) -> Result<(), (&'static str, String)> {
    if settings.table_sha256.as_ref().is_some_and(|hash| *hash != digest(&source.table)) {
        return Err(("table_sha256", "it is that of another table; the settings of this one were expected".to_owned()));
    }
    let (named, slots) = (settings.slots.len(), source.forest.slots);
    if named != slots {
        return Err(("slots", format!("{named} names; as many as the table has slots were expected, {slots}")));
    }
    let needed = source.needed.rows;
    let (rows, most) = (settings.depth as u64, MOST_DEPTH as u64);
    match (needed..=most).contains(&rows) {
        true => Ok(()),
        false => Err((
            "depth",
            format!(
                "{}; the {} that table and sizing need, or more up to {}, was expected",
                grouped(rows),
                grouped(needed),
                grouped(most)
            ),
        )),
    }
}

/// The indicators that are declared and that no rule reads: they get no slot.
fn unread(strategy: &Strategy, names: &[String]) -> Option<String> {
    let read = |name: &String| names.iter().any(|slot| slot.split('.').next() == Some(name));
    let unread: Vec<&str> = strategy.indicators.keys().filter(|name| !read(name)).map(String::as_str).collect();
    (!unread.is_empty()).then(|| format!("indicators: {}: no rule reads it, so it takes no slot", unread.join(", ")))
}
