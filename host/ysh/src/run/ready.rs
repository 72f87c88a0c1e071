//! A run made ready: rules and settings of one file, the columns of another, an engine before its first bar.

use yshturpa::{Engine, Settings};

use super::asked::{Given, Over};
use crate::bars::{BarsFile, Input};
use crate::cli::Reading;
use crate::compile::{self, Choices, Rules};
use crate::decompile::slot_names;
use crate::files::name_of;
use crate::problem::Problem;
use crate::settings_file::SettingsFile;
use crate::source::Source;
use crate::strategy::Strategy;

pub struct Ready {
    pub source: Source,
    pub settings: Settings,
    pub bars: BarsFile,
    pub engine: Engine,
    /// Whether bars that look wrong are an error.
    pub strict: bool,
}

/// The cash at the start where none is given.
const CAPITAL: f64 = 10_000.0;

impl Ready {
    pub fn of(over: &Over) -> Result<Ready, Problem> {
        Ready::over(over, Input::of(&over.bars))
    }

    /// The same with bars that can be read more than once.
    pub fn kept(over: &Over) -> Result<Ready, Problem> {
        let input = Input::of(&over.bars);
        let name = input.name.clone();
        Ready::over(over, input.kept().map_err(|error| Problem::io(name, "kept", &error))?)
    }

    fn over(over: &Over, input: Input) -> Result<Ready, Problem> {
        let (source, settings) = source_and_settings(over, None)?;
        let bars = BarsFile::open(input, &over.form, &names_of(&source))?;
        let engine = made(&source, &settings)?;
        Ok(Ready { source, settings, bars, engine, strict: over.strict })
    }

    /// What looked wrong in the bars that were read; an error where reading is strict.
    pub fn odd(&self) -> Result<Vec<String>, Problem> {
        self.bars.doubts(self.strict)
    }

    /// What is to be said beside the answer.
    pub fn notes(&self) -> Vec<String> {
        notes_of(&self.source, &self.settings, &self.bars)
    }
}

/// What is to be said beside a run of a file over bars.
pub fn notes_of(source: &Source, settings: &Settings, bars: &BarsFile) -> Vec<String> {
    let mut notes = source.notes.clone();
    if settings.funding && bars.columns.funding.is_none() {
        notes.push(format!("funding is on, and {} has no mark and rate: nothing is charged", bars.name));
    }
    notes
}

/// What a FILE says, and the settings that a run of it has; a strategy's slots in an order, where one is given.
pub fn source_and_settings(over: &Over, order: Option<&[String]>) -> Result<(Source, Settings), Problem> {
    let choices = Choices { order, absent_short_exit: over.given.absent_short_exit };
    let reading = Reading { lookback: None, strict: over.strict };
    let source = Source::read_with(&over.file, &reading, choices)?;
    let settings = match (&source.strategy, &source.settings) {
        (Some(strategy), _) => of_strategy(&source, strategy, &over.given)?,
        (None, Some(beside)) => of_table(&source, beside, over)?,
        (None, None) => {
            let beside = SettingsFile::beside(&over.file);
            let text = format!("a table runs with its settings, and there is no {}", name_of(&beside));
            return Err(Problem::input(&source.file, "", text));
        }
    };
    Ok((source, settings))
}

fn of_strategy(source: &Source, strategy: &Strategy, given: &Given) -> Result<Settings, Problem> {
    let file = &source.file;
    let warmup = compile::warmup(strategy, given.warmup).map_err(|fault| Problem::fault(file, fault))?;
    let rules = Rules { table: source.table.clone(), names: source.names.clone(), paths: source.paths.clone() };
    let settings = compile::settings(strategy, &rules, warmup, given.capital.unwrap_or(CAPITAL))
        .map_err(|stopped| Problem::of(file, stopped))?;
    Ok(Settings { lot: given.lot.unwrap_or(0.0), ..settings })
}

fn of_table(source: &Source, beside: &SettingsFile, over: &Over) -> Result<Settings, Problem> {
    let file = name_of(&SettingsFile::beside(&over.file));
    if let Some(name) = over.given.first() {
        let text = format!("a table has it in its settings, {file}; it was expected there");
        return Err(Problem::input(&source.file, name, text));
    }
    beside.settings().map_err(|fault| Problem::fault(file, fault))
}

/// The slots' names; those of a table's slots that have none are `slot0` and so on.
pub fn names_of(source: &Source) -> Vec<String> {
    match source.names.is_empty() {
        true => slot_names(source.forest.slots),
        false => source.names.clone(),
    }
}

/// An engine before its first bar; settings that it would refuse at every bar (12) are refused now.
pub fn made(source: &Source, settings: &Settings) -> Result<Engine, Problem> {
    let made = Engine::new(&source.table, settings, 0, 1).map_err(|error| match error {
        yshturpa::Error::Refused(refusal) => source.refused(refusal),
        other => Problem::input(&source.file, "", other.to_string()),
    })?;
    made.clone().finish().map_err(|refusal| source.refused(refusal))?;
    Ok(made)
}
