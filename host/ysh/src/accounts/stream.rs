//! The stream: its bars go to four accounts at once.

use std::path::PathBuf;
use std::sync::Arc;

use yshturpa::{Account, Refusal, Status, Stream};

use super::asked::Accounts;
use super::slots::of_stream;
use crate::bars::{BarsFile, Input, Keep, OnRefusal, Part, Refusals};
use crate::lists::List;
use crate::problem::Problem;
use crate::progress::Late;
use crate::run::asked::Over;
use crate::run::outcome::Outcome;
use crate::run::results::{Results, Tally};
use crate::run::used::used;
use crate::run::{made, names_of, notes_of, source_and_settings};
use crate::show::shown;
use crate::source::Source;

/// What became of the accounts, in their order.
pub struct Streamed {
    pub bars_file: String,
    pub slots: Vec<String>,
    pub bars: u64,
    pub accounts: Vec<Ended>,
}

/// An account at the end: its run, and what stopped it.
pub struct Ended {
    pub outcome: Outcome,
    pub stopped: Option<Stopped>,
}

/// The refusal, the bar of the stream that it was given at, and that bar's time.
#[derive(Clone, Copy, Debug)]
pub struct Stopped {
    pub refusal: Refusal,
    pub bar: u64,
    pub time: Option<i64>,
}

/// Bars that are refused one by one are kept as long as they are told.
const KEPT: usize = 1000;

pub fn streamed(asked: &Accounts) -> Result<Streamed, Problem> {
    let overs: Vec<Over> = asked.files.iter().map(|file| asked.how.over(file.clone(), asked.bars.clone())).collect();
    let alone = |over: &Over| source_and_settings(over, None).map(|(source, _)| (names_of(&source), source));
    let alone: Vec<(Source, Vec<String>)> =
        overs.iter().map(|over| alone(over).map(|(names, source)| (source, names))).collect::<Result<_, _>>()?;
    let slots = of_stream(&alone)?;
    let bars = BarsFile::open(Input::of(&asked.bars), &asked.how.form, &slots)?;
    let mut accounts = Vec::new();
    for (over, (source, own)) in overs.iter().zip(alone) {
        accounts.push(begun(over, source, own, &slots, &bars)?);
    }
    let mut four: [Account; 4] = std::array::from_fn(|n| accounts[n].account.clone());
    let mut run = stepped(&bars, slots.len(), asked, &mut four)?;
    let mut ended = Vec::new();
    for (number, (begun, account)) in accounts.into_iter().zip(four).enumerate() {
        ended.push(begun.ended(account, number, &mut run)?);
    }
    Ok(Streamed { bars_file: bars.name.clone(), bars: run.bars, accounts: ended, slots })
}

/// An account before its first bar.
struct Begun {
    account: Account,
    /// Its run as it is, before any bar.
    outcome: Outcome,
}

/// An account over the stream's slots: a strategy is made for all of them, a table has its own.
fn begun(over: &Over, source: Source, own: Vec<String>, slots: &[String], bars: &BarsFile) -> Result<Begun, Problem> {
    let order = source.strategy.is_some().then_some(slots);
    let (source, settings) = source_and_settings(over, order)?;
    let engine = made(&source, &settings)?;
    let mut columns = bars.columns.clone();
    columns.slots =
        own.iter().filter_map(|name| Some(bars.columns.slots[slots.iter().position(|slot| slot == name)?])).collect();
    let title = source.strategy.as_ref().map(|s| format!("{} {}", s.symbol, s.timeframe)).unwrap_or_default();
    let metrics = engine.clone().finish().map_err(|refusal| source.refused(refusal))?;
    let outcome = Outcome {
        used: used(&source, &settings),
        file: source.file.clone(),
        bars_file: bars.name.clone(),
        title: shown(title.trim()),
        capital: settings.capital,
        metrics,
        trades: List::default(),
        tally: Tally::default(),
        equity: List::default(),
        closes: Arc::default(),
        fees: 0.0,
        refusals: Refusals::default(),
        unread: columns.unread().into_iter().map(shown).collect(),
        odd: Vec::new(),
        doubts: source.doubts.clone(),
        notes: notes_of(&source, &settings, bars),
    };
    Ok(Begun { account: Account::new(&source.table, engine), outcome })
}

impl Begun {
    fn ended(self, mut account: Account, number: usize, run: &mut Stepped) -> Result<Ended, Problem> {
        let mut results = std::mem::take(&mut run.results[number]);
        let refused = |refusal| Problem::refused(&self.outcome.file, refusal);
        let metrics = results.finished(&mut account.engine, self.outcome.capital, refused)?;
        let outcome = Outcome {
            metrics,
            tally: Tally::of(&results.trades),
            trades: results.trades,
            equity: results.points,
            closes: run.closes.clone(),
            fees: account.engine.state().fees_paid(),
            refusals: run.refusals.clone(),
            odd: run.odd.clone(),
            ..self.outcome
        };
        Ok(Ended { outcome, stopped: run.stopped[number] })
    }
}

/// The bars that the stream took, and those that it refused; what the accounts left behind on the way, and what stopped them.
#[derive(Default)]
struct Stepped {
    bars: u64,
    /// Where a page is drawn.
    closes: Arc<List<f64>>,
    results: [Results; 4],
    stopped: [Option<Stopped>; 4],
    refusals: Refusals,
    /// What looked wrong in them.
    odd: Vec<String>,
}

impl Stepped {
    /// Some bars more that the stream took, from a place of a part on: which accounts they stopped.
    fn took(&mut self, part: &Part, at: usize, four: &[Account; 4]) {
        for (stopped, account) in self.stopped.iter_mut().zip(four) {
            if let (None, Status::Stopped { refusal, bar }) = (&stopped, account.status()) {
                let place = at + (bar - self.bars) as usize;
                let time = (place < part.bars.len()).then(|| part.bars.time(place));
                *stopped = Some(Stopped { refusal, bar, time });
            }
        }
    }
}

fn stepped(bars: &BarsFile, slots: usize, asked: &Accounts, four: &mut [Account; 4]) -> Result<Stepped, Problem> {
    let how = &asked.how;
    let mut stream = Stream::new(slots);
    let mut run = Stepped::default();
    let mut closes = Results::new(asked.reports.is_some());
    let shown = Late::bytes(bars.length());
    let read = bars.each(|part| {
        let (mut at, end) = (0, part.bars.len());
        four.iter_mut().for_each(|account| account.engine.make_room(end));
        while at < end {
            let done = stream.step_over(&part.bars, at..end, four);
            closes.bars(&part.bars, at..at + done.bars)?;
            run.took(&part, at, four);
            run.bars += done.bars as u64;
            at += done.bars;
            let Some(refusal) = done.refused else { continue };
            let wrong = if refusal.number == 11 { bars.columns.not_finite(&part.bars.bar(at)) } else { None };
            let Some(wrong) = wrong else { return Err(Problem::refused(&bars.name, refusal)) };
            let problem = bars.problem(part.lines[at], wrong);
            let problem = Problem { refusal: Some(refusal), ..problem };
            if how.on_refusal == OnRefusal::Stop {
                return Err(problem);
            }
            run.refusals.count += 1;
            if run.refusals.told.len() < KEPT {
                run.refusals.told.push(problem);
            }
            at += 1;
        }
        for (results, account) in run.results.iter_mut().zip(&mut *four) {
            let (points, trades) = account.engine.settled();
            results.results(points, trades)?;
            account.engine.forget_settled();
        }
        shown.reached(part.reached);
        Ok(true)
    });
    shown.ended();
    read?;
    run.odd = bars.doubts(how.strict)?;
    run.closes = Arc::new(closes.closes.unwrap_or_default());
    Ok(run)
}

impl Streamed {
    /// Where the report of each account goes.
    pub fn reports(&self, folder: &std::path::Path) -> Vec<PathBuf> {
        (1..=self.accounts.len()).map(|number| folder.join(format!("account-{number}.html"))).collect()
    }
}
