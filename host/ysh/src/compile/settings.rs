//! The settings of a strategy, and the same sizing, slippage and order kind in the library's records.

use yshturpa::{depth, EntryOrder, Settings};

use super::{Rules, Stopped};
use crate::strategy::spec::{self, Strategy};
use crate::strategy::Fault;

/// The settings of a strategy, for the depth that its rules and its sizing need.
pub fn settings(strategy: &Strategy, rules: &Rules, warmup: u64, capital: f64) -> Result<Settings, Stopped> {
    let window = depth(&rules.table, strategy.lookback()).map_err(|refusal| {
        let text = format!("{} (a lookback of {})", refusal.meaning(), strategy.lookback());
        Stopped::Refused(Fault::new("sizing.lookback", text), refusal)
    })?;
    let mut settings = Settings::new(rules.names.len(), window.rows as usize, capital, sizing_of(strategy.sizing));
    settings.warmup = warmup;
    settings.delay = strategy.execution.latency_bars.into();
    settings.taker_bps = strategy.costs.taker_bps;
    settings.slippage = slippage_of(strategy.costs.slippage)?;
    settings.funding = strategy.costs.funding;
    settings.stop_loss_pct = strategy.risk.stop_loss_pct;
    settings.trailing_stop_pct = strategy.risk.trailing_stop_pct;
    settings.take_profit_pct = strategy.risk.take_profit_pct;
    settings.max_leverage = strategy.risk.max_leverage;
    settings.max_position_pct = strategy.risk.max_position_pct;
    settings.liquidation = strategy.risk.liquidation;
    settings.partial_fills = strategy.execution.partial_fills;
    settings.max_participation = strategy.execution.max_participation.unwrap_or(0.0);
    settings.entry_order = entry_order_of(&strategy.execution);
    settings.maker_bps = strategy.costs.maker_bps;
    Ok(settings)
}

/// The warmup of the strategy, or the one that was given. With no indicators the original's is 0.
pub fn warmup(strategy: &Strategy, given: Option<u64>) -> Result<u64, Fault> {
    match (strategy.warmup, given) {
        (Some(own), Some(given)) if given != u64::from(own) => {
            let text = format!("the strategy says {own} and --warmup {given}; one of the two was expected");
            Err(Fault::new("warmup", text))
        }
        (Some(own), _) => Ok(own.into()),
        (None, Some(given)) => Ok(given),
        (None, None) if strategy.indicators.is_empty() => Ok(0),
        (None, None) => {
            let text = "the strategy leaves it to its indicators, which are not here; --warmup BARS was expected";
            Err(Fault::new("warmup", text))
        }
    }
}

/// The order kind with the offsets that it uses: a stop-limit's first percentage is its stop, its second its limit. An offset that
/// the kind does not use is left out, and so is one that `validate` would have asked for, as in the original.
pub fn entry_order_of(execution: &spec::Execution) -> EntryOrder {
    let limit_pct = execution.limit_offset_pct.unwrap_or(0.0);
    let stop_pct = execution.stop_offset_pct.unwrap_or(0.0);
    match execution.order_type {
        spec::OrderType::Market => EntryOrder::Market,
        spec::OrderType::Limit => EntryOrder::Limit { level_pct: limit_pct },
        spec::OrderType::Stop => EntryOrder::Stop { level_pct: stop_pct },
        spec::OrderType::StopLimit => EntryOrder::StopLimit { stop_pct, limit_pct },
    }
}

pub fn sizing_of(sizing: spec::Sizing) -> yshturpa::Sizing {
    match sizing {
        spec::Sizing::FixedFraction { fraction } => yshturpa::Sizing::FixedFraction(fraction),
        spec::Sizing::FixedQty { qty } => yshturpa::Sizing::FixedQty(qty),
        spec::Sizing::FixedCash { cash } => yshturpa::Sizing::FixedCash(cash),
        spec::Sizing::VolTarget { target_vol, lookback } => {
            yshturpa::Sizing::VolTarget { target: target_vol, lookback: lookback.into() }
        }
        spec::Sizing::RiskPerTrade { risk_pct } => yshturpa::Sizing::RiskPerTrade(risk_pct),
    }
}

pub fn slippage_of(slippage: spec::Slippage) -> Result<yshturpa::Slippage, Fault> {
    match slippage {
        spec::Slippage::FixedBps { bps } => Ok(yshturpa::Slippage::FixedBps(bps)),
        spec::Slippage::VolumeImpact { coef } => Ok(yshturpa::Slippage::VolumeImpact(coef)),
        spec::Slippage::Spread => Err(Fault::new("costs.slippage.type", "fixed_bps or volume_impact was expected")),
    }
}
