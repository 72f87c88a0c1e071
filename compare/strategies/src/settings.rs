//! The settings of a compiled strategy, against the document's.

use yshturpa::{depth, Settings};

use crate::limits::Size;
use crate::spec::{OrderType, Sizing, Slippage, StrategySpec};
use ysh::compile::{self, Rules};
use ysh::strategy::Strategy;

/// The settings are the strategy's, and D is what the text keeps: one more than the greatest reach and the lookback.
pub fn same_settings(theirs: &StrategySpec, ours: &Strategy, rules: &Rules, size: &Size) -> Result<(), String> {
    let lookback = match theirs.sizing {
        Sizing::VolTarget { lookback, .. } => lookback as usize,
        _ => 0,
    };
    let found = depth(&rules.table, lookback as u64);
    let settings = compile::settings(ours, rules, 7, 123.0);
    if lookback > 4095 {
        return match (found, settings) {
            (Err(refusal), Err(_)) if (refusal.number, refusal.place) == (12, 7) => Ok(()),
            other => Err(format!("a lookback of {lookback}: {other:?}")),
        };
    }
    let wanted = 1 + size.reach.max(lookback);
    let settings = settings.map_err(|stopped| format!("settings: {stopped:?}"))?;
    if found.map(|depth| depth.rows as usize) != Ok(wanted) || settings.depth != wanted {
        return Err(format!("depth {found:?} and {}, {wanted} expected", settings.depth));
    }
    match same_words(theirs, &settings) {
        true => Ok(()),
        false => Err(format!("settings {settings:?}")),
    }
}

/// Costs, risk and execution, to the last bit.
fn same_words(theirs: &StrategySpec, ours: &Settings) -> bool {
    let risk = &theirs.risk;
    let numbers = [
        (ours.taker_bps, theirs.costs.taker_bps),
        (ours.maker_bps, theirs.costs.maker_bps),
        (ours.lot, 0.0),
        (
            ours.max_participation,
            theirs.execution.max_participation.unwrap_or(0.0),
        ),
        (ours.delay as f64, f64::from(theirs.execution.latency_bars)),
    ];
    let levels = [
        (ours.stop_loss_pct, risk.stop_loss_pct),
        (ours.trailing_stop_pct, risk.trailing_stop_pct),
        (ours.take_profit_pct, risk.take_profit_pct),
        (ours.max_leverage, risk.max_leverage),
        (ours.max_position_pct, risk.max_position_pct),
    ];
    let switches = [
        (ours.funding, theirs.costs.funding),
        (ours.liquidation, risk.liquidation),
        (ours.partial_fills, theirs.execution.partial_fills),
    ];
    let bits = |x: Option<f64>| x.map(f64::to_bits);
    numbers.iter().all(|(a, b)| a.to_bits() == b.to_bits())
        && levels.iter().all(|(a, b)| bits(*a) == bits(*b))
        && switches.iter().all(|(a, b)| a == b)
        && same_kinds(theirs, ours)
        && same_order(theirs, ours)
}

/// The words 20 to 22 of an entry's order: its kind, and the offsets of `entry_trigger`, the first of which is where it triggers.
fn same_order(theirs: &StrategySpec, ours: &Settings) -> bool {
    let execution = &theirs.execution;
    let (limit, stop) = (execution.limit_offset_pct, execution.stop_offset_pct);
    let wanted = match execution.order_type {
        OrderType::Market => (0, Some(0.0), Some(0.0)),
        OrderType::Limit => (1, limit, Some(0.0)),
        OrderType::Stop => (2, stop, Some(0.0)),
        OrderType::StopLimit => (3, stop, limit),
    };
    let words = ours.words();
    let found = (words[20], Some(words[21]), Some(words[22]));
    found == (wanted.0, wanted.1.map(f64::to_bits), wanted.2.map(f64::to_bits))
}

/// Sizing and slippage, kind and value.
fn same_kinds(theirs: &StrategySpec, ours: &Settings) -> bool {
    let sizing = match (theirs.sizing, ours.sizing) {
        (Sizing::FixedFraction { fraction: a }, yshturpa::Sizing::FixedFraction(b)) => a.to_bits() == b.to_bits(),
        (Sizing::FixedQty { qty: a }, yshturpa::Sizing::FixedQty(b)) => a.to_bits() == b.to_bits(),
        (Sizing::FixedCash { cash: a }, yshturpa::Sizing::FixedCash(b)) => a.to_bits() == b.to_bits(),
        (Sizing::VolTarget { target_vol: a, .. }, yshturpa::Sizing::VolTarget { target: b, .. }) => {
            a.to_bits() == b.to_bits()
        }
        (Sizing::RiskPerTrade { risk_pct: a }, yshturpa::Sizing::RiskPerTrade(b)) => a.to_bits() == b.to_bits(),
        _ => false,
    };
    let slippage = match (theirs.costs.slippage, ours.slippage) {
        (Slippage::FixedBps { bps: a }, yshturpa::Slippage::FixedBps(b)) => a.to_bits() == b.to_bits(),
        (Slippage::VolumeImpact { coef: a }, yshturpa::Slippage::VolumeImpact(b)) => a.to_bits() == b.to_bits(),
        _ => false,
    };
    sizing && slippage
}
