//! The Rust original, compiled unchanged, behind plain functions on words.
//!
//! `modules.rs` is made by build.rs: the modules `data`, `engine`, `error`, `metrics`, `portfolio`, `report`, `rules` and
//! `spec` of the original. The rest stands here.

include!(concat!(env!("OUT_DIR"), "/modules.rs"));

pub mod answers;
pub mod lists;
pub mod registry;
pub mod table;
pub mod words;

use error::Result;
use metrics::Metrics;
use portfolio::Trade;
use spec::{Condition, Costs, Execution, OrderType, Risk, Sizing, Slippage, StrategySpec};

/// Which of the two decides where document 01 differs from the text: see docs/DIFFERENCES.md.
#[derive(Debug, Clone, Copy, PartialEq, Eq)]
pub enum Reading {
    Rust,
    Paper,
}

/// The settings of a run, in the order in which they are numbered.
#[derive(Debug, Clone, Copy)]
pub struct Settings {
    pub slots: usize,
    pub depth: usize,
    pub capital: f64,
    pub warmup: u32,
    pub delay: u32,
    pub sizing: Sizing,
    pub taker_bps: f64,
    pub slippage: Slippage,
    pub funding: bool,
    pub risk: Risk,
    pub partial_fills: bool,
    pub participation: f64,
    /// The order kind of an entry; how far its level stands from the deciding close, in percent, and a stop-limit's limit.
    pub order_type: OrderType,
    pub level_pct: f64,
    pub limit_pct: f64,
    pub maker_bps: f64,
    /// The text has no lots.
    pub lot: f64,
}

/// The square root.
pub fn root(x: f64) -> f64 {
    x.sqrt()
}

/// The spec that stands for a table and settings. A short exit that is absent is the exit rule in the text, and is never
/// yes by document 01.
pub fn spec_of(settings: &Settings, table: &table::Table, reading: Reading) -> StrategySpec {
    let never = Condition::Any(Vec::new());
    let [entry, exit, short_entry, short_exit] = table.trees.clone();
    let short_exit = match reading {
        Reading::Rust => short_exit,
        Reading::Paper => short_exit.or(Some(never.clone())),
    };
    StrategySpec {
        spec_version: spec::SPEC_VERSION,
        symbol: String::new(),
        ref_symbol: None,
        timeframe: String::new(),
        indicators: registry::slots(table.slots),
        entry: entry.unwrap_or(never.clone()),
        exit: exit.unwrap_or(never),
        short_entry,
        short_exit,
        sizing: settings.sizing,
        costs: Costs {
            maker_bps: settings.maker_bps,
            taker_bps: settings.taker_bps,
            slippage: settings.slippage,
            funding: settings.funding,
        },
        risk: settings.risk,
        execution: Execution {
            latency_bars: settings.delay,
            partial_fills: settings.partial_fills,
            max_participation: Some(settings.participation),
            ..order_of(settings)
        },
        warmup: Some(settings.warmup),
    }
}

/// The order kind of entries, with the percentages that it uses. The text has a name for a limit's and one for a stop's; here the first is
/// the level of either and the stop of a stop-limit, and the second is a stop-limit's limit.
fn order_of(settings: &Settings) -> Execution {
    let (limit, stop) = match settings.order_type {
        OrderType::Market => (None, None),
        OrderType::Limit => (Some(settings.level_pct), None),
        OrderType::Stop => (None, Some(settings.level_pct)),
        OrderType::StopLimit => (Some(settings.limit_pct), Some(settings.level_pct)),
    };
    Execution {
        order_type: settings.order_type,
        limit_offset_pct: limit,
        stop_offset_pct: stop,
        ..Execution::default()
    }
}

/// A run of a table, ready for its first bar.
pub fn run_of(settings: &Settings, table: &table::Table, reading: Reading) -> Result<engine::reach::Run> {
    engine::reach::Run::new(
        spec_of(settings, table, reading),
        settings.capital,
        settings.lot,
        reading,
    )
}

/// Metrics; by document 01 a profit factor without a win is +0.0, in the text −0.0.
pub fn metrics_of(initial: f64, equity: &[f64], trades: &[Trade], reading: Reading) -> Metrics {
    by_reading(metrics::compute(initial, equity, trades), reading)
}

pub fn by_reading(metrics: Metrics, reading: Reading) -> Metrics {
    match reading {
        Reading::Paper if metrics.profit_factor == 0.0 => Metrics {
            profit_factor: 0.0,
            ..metrics
        },
        _ => metrics,
    }
}
