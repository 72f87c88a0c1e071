//! A run that is watched bar by bar: at which bars the engine asked a rule, what was said there, and why it was not asked at the others.

use rayon::prelude::*;
use yshturpa::{why_over, Error, Position, Rows, Tree};

use super::asker::{Answers, Asker};
use super::shape::Shape;
use super::tally::{Stamp, Tally};
use crate::bars::{one_by_one, OnRefusal, Refusals, Stepped};
use crate::problem::Problem;
use crate::run::Ready;
use crate::source::Source;
use crate::why::moment::is_flat;
use crate::why::place::Bounds;

/// Why a rule was not asked at a bar.
#[derive(Clone, Copy, Debug, PartialEq, Eq)]
pub enum Why {
    Warmup,
    Order,
    Position,
    Entry,
}

impl Why {
    pub const ALL: [Why; 4] = [Why::Warmup, Why::Order, Why::Position, Why::Entry];

    pub fn words(self, tree: Tree) -> &'static str {
        match (self, tree) {
            (Why::Warmup, _) => "the warmup",
            (Why::Order, _) => "an order works",
            (Why::Position, Tree::Entry | Tree::ShortEntry) => "a position is held",
            (Why::Position, Tree::Exit) => "no long position is held",
            (Why::Position, Tree::ShortExit) => "no short position is held",
            (Why::Entry, _) => "the entry said yes",
        }
    }
}

/// A bar at which one test alone kept the rule from a yes.
pub struct Missed {
    pub at: Stamp,
    /// The tests, each of which alone would have made it a yes.
    pub tests: Vec<usize>,
    pub answers: Answers,
    pub position: Position,
}

/// What was seen over a stretch of bars.
pub struct Blocked {
    pub tree: Tree,
    pub tally: Tally,
    /// The bars of the stretch, and at how many of them the rule was asked and said yes.
    pub bars: u64,
    pub asked: u64,
    pub yes: u64,
    pub not_asked: [u64; Why::ALL.len()],
    pub first: Option<Stamp>,
    pub last: Option<Stamp>,
    pub missed: Vec<Missed>,
    pub missed_count: u64,
    pub refusals: Refusals,
}

/// As many bars that were one test away as are kept.
const KEPT: usize = 1000;

impl Blocked {
    /// Watches a run to the end of its stretch; each bar of the stretch is shown, with what was answered where the rule was asked.
    pub fn of(
        ready: &Ready,
        tree: Tree,
        bounds: Bounds,
        on_refusal: OnRefusal,
        mut see: impl FnMut(Stamp, Option<(&Answers, &Position)>),
    ) -> Result<(Blocked, Shape), Problem> {
        let source = &ready.source;
        let Some(shape) = Shape::of(&source.forest, tree) else {
            return Err(Problem::input(
                &source.file,
                "--tree",
                format!("the {} is absent, and never yes", tree.name()),
            ));
        };
        let mut found = Blocked::new(tree, &shape);
        let asker = Asker::new(source, tree, &shape);
        let failed = |error: Error| Problem::input(&source.file, "", error.to_string());
        let warmup = ready.settings.warmup;
        let mut engine = ready.engine.clone();
        found.refusals = one_by_one(&ready.bars, &mut engine, on_refusal, |rows, kept, done| {
            let answered = done.par_chunks(CHUNK).enumerate().map(|(n, bars)| {
                said(source, &asker, tree, (rows, kept + n * CHUNK), bars, |bar| {
                    match bounds.holds(bar.number, bar.time) {
                        true => Some(not_asked(bar, tree, warmup)),
                        false => None,
                    }
                })
            });
            let answered: Vec<_> = answered.collect::<Result<_, Error>>().map_err(failed)?;
            let answered: Vec<_> = answered.into_iter().flatten().collect();
            for (bar, said) in done.iter().zip(&answered).filter_map(|(bar, said)| Some((bar, said.as_ref()?))) {
                let at = Stamp { bar: bar.number, time: bar.time };
                found.add(&shape, at, &bar.position, said);
                see(at, said.as_ref().ok().map(|answers| (answers, &bar.position)));
            }
            Ok(!done.last().is_some_and(|bar| bounds.is_past(bar.number)))
        })?;
        Ok((found, shape))
    }

    fn new(tree: Tree, shape: &Shape) -> Blocked {
        Blocked {
            tree,
            tally: Tally::of(shape),
            bars: 0,
            asked: 0,
            yes: 0,
            not_asked: [0; Why::ALL.len()],
            first: None,
            last: None,
            missed: Vec::new(),
            missed_count: 0,
            refusals: Refusals::default(),
        }
    }

    fn add(&mut self, shape: &Shape, at: Stamp, position: &Position, said: &Result<Answers, Why>) {
        self.bars += 1;
        self.first.get_or_insert(at);
        self.last = Some(at);
        let answers = match said {
            Ok(answers) => answers,
            Err(why) => return self.not_asked[*why as usize] += 1,
        };
        self.asked += 1;
        self.yes += u64::from(answers.answer);
        let tests = self.tally.add(shape, answers, at);
        if !tests.is_empty() {
            self.missed_count += 1;
            if self.missed.len() < KEPT {
                self.missed.push(Missed { at, tests, answers: answers.clone(), position: *position });
            }
        }
    }
}

/// Why the engine did not ask a rule at a bar; whether the entry said yes before a short entry is not looked at.
fn not_asked(bar: &Stepped, tree: Tree, warmup: u64) -> Option<Why> {
    let (flat, long) = (is_flat(&bar.position), bar.position.qty > 0.0);
    let right = match tree {
        Tree::Entry | Tree::ShortEntry => flat,
        Tree::Exit => !flat && long,
        Tree::ShortExit => !flat && !long,
    };
    match (bar.worked, bar.number < warmup, right) {
        (true, _, _) => Some(Why::Order),
        (false, true, _) => Some(Why::Warmup),
        (false, false, false) => Some(Why::Position),
        (false, false, true) => None,
    }
}

/// Bars that are asked about in one call.
const CHUNK: usize = 512;

/// What was said at some bars one after another, of those that are looked at; the row of the first of them is given.
fn said(
    source: &Source,
    asker: &Asker,
    tree: Tree,
    (rows, first): (&Rows, usize),
    bars: &[Stepped],
    looked_at: impl Fn(&Stepped) -> Option<Option<Why>>,
) -> Result<Vec<Option<Result<Answers, Why>>>, Error> {
    let wanted: Vec<Option<Option<Why>>> = bars.iter().map(looked_at).collect();
    let mut all: Vec<Option<Result<Answers, Why>>> = wanted.iter().map(|wanted| wanted.flatten().map(Err)).collect();
    // Bars in a row at which the rule was asked are one question.
    let mut from = 0;
    while let Some(next) = wanted[from..].iter().position(|wanted| *wanted == Some(None)) {
        let begin = from + next;
        let count = wanted[begin..].iter().take_while(|wanted| **wanted == Some(None)).count();
        from = begin + count;
        let positions: Vec<Position> = bars[begin..from].iter().map(|bar| bar.position).collect();
        // Where the entry said yes, the short entry was not asked.
        let entered = match tree {
            Tree::ShortEntry => why_over(&source.table, Tree::Entry, rows, first + begin, &positions)?,
            _ => Vec::new(),
        };
        for (n, answers) in asker.ask(rows, first + begin, &positions)?.into_iter().enumerate() {
            let short = entered.get(n).is_some_and(|chain| chain[0].answer);
            all[begin + n] = Some(if short { Err(Why::Entry) } else { Ok(answers) });
        }
    }
    Ok(all)
}
