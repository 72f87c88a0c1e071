//! A run at one of its bars: what the rules see there, and which of them the engine asked.

use yshturpa::{rule, Bar, Engine, Order, OrderLevel, Position, Rows, State, Tree};

use super::words::Telling;
use crate::bars::{over, At, BarsFile, Nothing, OnRefusal, Way};
use crate::columns::counted;
use crate::problem::Problem;
use crate::run::Ready;
use crate::show::rounded;
use crate::source::Source;

/// The run after a bar's fills and exits, when rules are asked.
pub struct Moment {
    pub source: Source,
    pub bar: Bar,
    /// The bar's number, from 0.
    pub number: u64,
    pub rows: Rows,
    pub position: Position,
    pub asked: Asked,
}

/// What the engine asked at a bar.
pub enum Asked {
    /// Nothing: the bar's number is below the warmup.
    Warmup(u64),
    /// Nothing: an order works, in words.
    Working(String),
    /// These, one after another.
    Trees(Vec<Tree>),
}

impl Moment {
    pub fn of(ready: &Ready, on_refusal: OnRefusal, at: At) -> Result<Moment, Problem> {
        let Ready { source, settings, bars, engine, .. } = ready;
        let mut engine = engine.clone();
        let way = Way { on_refusal, after: None, until: Some(at) };
        let walked = over(bars, &mut engine, way, &mut Nothing)?;
        let Some(bar) = walked.before else {
            return Err(not_there(bars, at, engine.state().bars_seen()));
        };
        let number = engine.state().bars_seen();
        let refused = |refusal| Problem::refused(&bars.name, refusal);
        engine.make_room(1);
        let working = working(engine.apart(), &bar).map_err(refused)?;
        engine.step(&bar).map_err(refused)?;
        let (rows, position) = (engine.rows(), engine.state().position());
        let asked = match working {
            Some(order) => Asked::Working(order),
            None if number < settings.warmup => Asked::Warmup(settings.warmup),
            None => Asked::Trees(trees(source, &rows, &position)?),
        };
        Ok(Moment { source: source.clone(), bar, number, rows, position, asked })
    }

    /// How its chains are told.
    pub fn telling(&self) -> Telling<'_> {
        let (forest, names) = (&self.source.forest, &self.source.names[..]);
        Telling { forest, names, position: &self.position, bars: self.number + 1 }
    }
}

impl Asked {
    pub fn words(&self) -> String {
        match self {
            Asked::Warmup(bars) => format!("nothing: the first {} are warmup", counted(*bars, "bar", "bars")),
            Asked::Working(order) => format!("nothing: {order} works"),
            Asked::Trees(trees) => trees.iter().map(|tree| tree.name()).collect::<Vec<_>>().join(", then "),
        }
    }
}

pub fn not_there(bars: &BarsFile, at: At, seen: u64) -> Problem {
    let text = match at {
        At::Bar(number) => format!("there is no bar {number}; it has {seen} bars, the first of them bar 0"),
        At::Place(_) => "the bar of that time was refused, and left out".to_owned(),
    };
    Problem::input(&bars.name, "--at", text)
}

/// The order that still works after a bar's fills, in words. A run without rules decides nothing, so what works after its step worked
/// before anything was decided.
fn working(engine: Engine, bar: &Bar) -> Result<Option<String>, yshturpa::Refusal> {
    let mut engine = engine.without_rules();
    engine.step(bar)?;
    Ok(order_words(&engine.state()))
}

/// The working order in words, where there is one.
pub fn order_words(state: &State) -> Option<String> {
    let (order, delay) = state.order()?;
    let what = match order {
        Order::Long => "an entry long",
        Order::Short => "an entry short",
        Order::Exit => "an exit",
    };
    let level = match state.order_level() {
        OrderLevel::Market => String::new(),
        OrderLevel::Limit { level } => format!(" at a limit of {}", rounded(level)),
        OrderLevel::Stop { level } => format!(" at a stop of {}", rounded(level)),
        OrderLevel::StopLimit { stop, limit } => {
            format!(" at a stop of {} with a limit of {}", rounded(stop), rounded(limit))
        }
    };
    let waits = if delay > 0 { format!(", which waits {delay} bars more") } else { String::new() };
    Some(format!("{what}{level}{waits}"))
}

/// "Flat: entry, else short entry. Long: exit. Short: short exit."
fn trees(source: &Source, rows: &Rows, position: &Position) -> Result<Vec<Tree>, Problem> {
    if !is_flat(position) {
        return Ok(vec![if position.qty > 0.0 { Tree::Exit } else { Tree::ShortExit }]);
    }
    let entered = rule(&source.table, Tree::Entry, rows, position)
        .map_err(|error| Problem::input(&source.file, "", error.to_string()))?;
    Ok(if entered { vec![Tree::Entry] } else { vec![Tree::Entry, Tree::ShortEntry] })
}

pub fn is_flat(position: &Position) -> bool {
    // As the engine has it: a quantity that is no number is flat.
    !matches!(position.qty.abs().partial_cmp(&f64::EPSILON), Some(std::cmp::Ordering::Greater))
}
