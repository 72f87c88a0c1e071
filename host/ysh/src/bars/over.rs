//! A run over a file of bars: every bar, or up to one; what was refused on the way.

use std::ops::Range;

use clap::ValueEnum;
use yshturpa::{Bar, Bars, Engine, Order, Position, Refusal, Rows, State};

use super::file::{BarsFile, Part};
use crate::problem::Problem;
use crate::progress::Late;

/// What a refused bar does to a run.
#[derive(Clone, Copy, Debug, PartialEq, Eq, ValueEnum)]
pub enum OnRefusal {
    /// The run ends there, and nothing is written
    Stop,
    /// The bar is left out, and the run goes on
    Skip,
}

/// A bar of a run by its number, which counts the bars that were done, or by its place, which counts the file's bars; both from 0.
#[derive(Clone, Copy, Debug, PartialEq, Eq)]
pub enum At {
    Bar(u64),
    Place(u64),
}

/// The last bar that a run has seen: how many it had seen with it, and what it was.
#[derive(Clone, Copy, Debug)]
pub struct Seen {
    bars: u64,
    time: i64,
    close: f64,
}

impl Seen {
    pub fn of(state: &State) -> Seen {
        Seen { bars: state.bars_seen(), time: state.last_time(), close: state.last_close() }
    }
}

/// Which bars of a file a run takes: those after one that it has seen, up to one that is asked for.
#[derive(Clone, Copy, Debug)]
pub struct Way {
    pub on_refusal: OnRefusal,
    pub after: Option<Seen>,
    pub until: Option<At>,
}

/// The bars that were left out: how many, and what is told of the first of them.
#[derive(Clone, Debug, Default)]
pub struct Refusals {
    pub count: u64,
    pub told: Vec<Problem>,
}

/// As many of them as are kept.
const KEPT: usize = 1000;

/// How far a run has come: what was left out, and the bar that it stopped before, where one was asked for and is there.
pub struct Walked {
    pub refusals: Refusals,
    pub before: Option<Bar>,
}

/// What a run leaves behind on its way.
pub trait Keep {
    /// Bars that were done, in the list that they stand in.
    fn bars(&mut self, list: &Bars, places: Range<usize>) -> Result<(), Problem>;
    /// Points and trades that nothing changes any more, in their words.
    fn results(&mut self, points: &[u64], trades: &[u64]) -> Result<(), Problem>;
}

/// Nothing of it is kept.
pub struct Nothing;

impl Keep for Nothing {
    fn bars(&mut self, _: &Bars, _: Range<usize>) -> Result<(), Problem> {
        Ok(())
    }

    fn results(&mut self, _: &[u64], _: &[u64]) -> Result<(), Problem> {
        Ok(())
    }
}

/// Steps over a file's bars. What is settled is handed over part by part; the engine has the rest.
pub fn over(file: &BarsFile, engine: &mut Engine, way: Way, keep: &mut impl Keep) -> Result<Walked, Problem> {
    let mut walk = Walk { file, way, passed: 0, places: 0, refusals: Refusals::default() };
    let mut before = None;
    let bar = Late::bytes(file.length());
    let result = file.each(|part| {
        engine.make_room(part.bars.len());
        before = walk.part(engine, &part, keep)?;
        let (points, trades) = engine.settled();
        keep.results(points, trades)?;
        engine.forget_settled();
        walk.places += part.bars.len() as u64;
        bar.reached(part.reached);
        Ok(before.is_none())
    });
    bar.ended();
    result?;
    if let Some(seen) = walk.way.after {
        let text = format!(
            "none of its bars is the one that was seen last, with the time {} and the close {}; where it has only the bars that come \
             after, --rest was expected",
            seen.time, seen.close
        );
        return Err(Problem::input(&file.name, "", text));
    }
    Ok(Walked { refusals: walk.refusals, before })
}

/// A bar that was done: its number, what is held after it, and whether an order still worked when rules could have been asked.
pub struct Stepped {
    pub number: u64,
    pub time: i64,
    pub position: Position,
    pub worked: bool,
    /// The order that was made at it.
    pub ordered: Option<Order>,
}

/// Steps over a file's bars one by one, keeping neither equity nor trades. After each part of the file what was done in it is handed over,
/// with the rows that are held and how many of these were there before; it goes on while it is told to.
pub fn one_by_one(
    file: &BarsFile,
    engine: &mut Engine,
    on_refusal: OnRefusal,
    mut take: impl FnMut(&Rows, usize, &[Stepped]) -> Result<bool, Problem>,
) -> Result<Refusals, Problem> {
    let way = Way { on_refusal, after: None, until: None };
    let mut walk = Walk { file, way, passed: 0, places: 0, refusals: Refusals::default() };
    let progress = Late::bytes(file.length());
    let result = file.each(|part| {
        engine.forget_results();
        engine.make_room(part.bars.len());
        let kept = engine.state().rows_held() as usize;
        let mut done = Vec::with_capacity(part.bars.len());
        for place in 0..part.bars.len() {
            let before = engine.state();
            let worked = before.order().is_some() && works(engine, &part.bars, place);
            match engine.step_over(&part.bars, place..place + 1).refused {
                Some(refusal) => walk.refused(&part.bars.bar(place), part.lines[place], refusal)?,
                None => {
                    let after = engine.state();
                    done.push(Stepped {
                        number: before.bars_seen(),
                        time: part.bars.time(place),
                        position: after.position(),
                        worked,
                        ordered: after.order().filter(|_| !worked).map(|(order, _)| order),
                    });
                }
            }
        }
        progress.reached(part.reached);
        take(&engine.rows(), kept, &done)
    });
    progress.ended();
    result?;
    Ok(walk.refusals)
}

/// Whether the working order still works after a bar's fills. A run without rules decides nothing, so what works after its step worked
/// before anything was decided.
fn works(engine: &Engine, bars: &Bars, place: usize) -> bool {
    let mut apart = engine.apart().without_rules();
    apart.step_over(bars, place..place + 1);
    apart.state().order().is_some()
}

struct Walk<'a> {
    file: &'a BarsFile,
    way: Way,
    /// Bars that were passed over while the one that was seen last is looked for.
    passed: u64,
    /// Bars of the parts before.
    places: u64,
    refusals: Refusals,
}

impl Walk<'_> {
    /// The bars of a part; the one that is asked for, where it is among them.
    fn part(&mut self, engine: &mut Engine, part: &Part, keep: &mut impl Keep) -> Result<Option<Bar>, Problem> {
        let Some(mut at) = self.first(&part.bars) else { return Ok(None) };
        loop {
            let end = self.asked_for(&part.bars, at, engine.state().bars_seen()).unwrap_or(part.bars.len());
            let stepped = engine.step_over(&part.bars, at..end);
            keep.bars(&part.bars, at..at + stepped.bars)?;
            at += stepped.bars;
            let refusal = match stepped.refused {
                Some(refusal) => refusal,
                None if end == part.bars.len() => return Ok(None),
                // The bar that is asked for: one that is refused has no number, and the next one may have it.
                None => match engine.apart().step(&part.bars.bar(end)) {
                    Ok(()) => return Ok(Some(part.bars.bar(end))),
                    Err(refusal) => refusal,
                },
            };
            self.refused(&part.bars.bar(at), part.lines[at], refusal)?;
            at += 1;
        }
    }

    /// The first place whose bar was not seen yet; none where all of them were. A bar that was left out is in no count, so the one that was
    /// seen last may stand later in the file than its number says, and never before.
    fn first(&mut self, bars: &Bars) -> Option<usize> {
        let Some(seen) = self.way.after else { return Some(0) };
        let from = usize::try_from((seen.bars - 1).saturating_sub(self.passed)).unwrap_or(usize::MAX);
        let last =
            |place: &usize| bars.time(*place) == seen.time && bars.close(*place).to_bits() == seen.close.to_bits();
        let found = (from.min(bars.len())..bars.len()).find(last);
        match found {
            Some(_) => self.way.after = None,
            None => self.passed += bars.len() as u64,
        }
        found.map(|place| place + 1)
    }

    /// The place of the bar that is asked for, from a place on whose bar has this number.
    fn asked_for(&self, bars: &Bars, from: usize, number: u64) -> Option<usize> {
        let place = match self.way.until? {
            At::Bar(wanted) => from + usize::try_from(wanted.checked_sub(number)?).ok()?,
            At::Place(wanted) => usize::try_from(wanted.checked_sub(self.places)?).ok()?,
        };
        (from..bars.len()).contains(&place).then_some(place)
    }

    /// A refused bar: the end of the run, or one that is left out. Only what a bar is refused for can be left out with it.
    fn refused(&mut self, bar: &Bar, line: u64, refusal: Refusal) -> Result<(), Problem> {
        let wrong = match refusal.number {
            11 => self.file.columns.not_finite(bar),
            16 => None,
            _ => return Err(Problem::refused(&self.file.name, refusal)),
        };
        let problem = match wrong {
            Some(wrong) => self.file.problem(line, wrong),
            None => Problem::input(&self.file.name, format!("line {line}"), refusal.meaning()),
        };
        let problem = Problem { refusal: Some(refusal), ..problem };
        if self.way.on_refusal == OnRefusal::Stop {
            return Err(problem);
        }
        self.refusals.count += 1;
        if self.refusals.told.len() < KEPT {
            self.refusals.told.push(problem);
        }
        Ok(())
    }
}
