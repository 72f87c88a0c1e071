//! What a run used, in words: the rules, how much was bought, what that cost, and when it was left.

use yshturpa::{EntryOrder, Settings, Sizing, Slippage};

use crate::columns::counted;
use crate::show::rounded;
use crate::source::Source;
use crate::table::Words;

/// Each part of it, by its name.
pub fn used(source: &Source, settings: &Settings) -> Vec<(&'static str, String)> {
    let words = Words { forest: &source.forest, names: &source.names };
    let mut used: Vec<(&'static str, String)> =
        source.forest.roots.iter().map(|&(tree, root)| (tree.name(), words.whole(root))).collect();
    used.extend([
        ("sizing", sizing(settings)),
        ("costs", costs(settings)),
        ("risk", risk(settings)),
        ("entries", entries(settings)),
        (
            "window",
            format!(
                "{}; warmup {}",
                counted(settings.depth as u64, "row", "rows"),
                counted(settings.warmup, "bar", "bars")
            ),
        ),
    ]);
    used
}

fn sizing(settings: &Settings) -> String {
    let said = match settings.sizing {
        Sizing::FixedFraction(f) => format!("{}% of the equity", rounded(f * 100.0)),
        Sizing::FixedQty(q) => format!("a quantity of {}", rounded(q)),
        Sizing::FixedCash(m) => format!("money of {}", rounded(m)),
        Sizing::VolTarget { target, lookback } => {
            format!("a volatility of {}% a bar, over {}", rounded(target * 100.0), counted(lookback, "bar", "bars"))
        }
        Sizing::RiskPerTrade(p) => format!("a risk of {}% of the equity at the stop loss", rounded(p)),
    };
    let cap = format!("; at most {} times the equity", rounded(settings.max_leverage.unwrap_or(1.0)));
    let position = settings.max_position_pct.map_or(String::new(), |p| format!(" and {}% of it", rounded(p)));
    let lot = if settings.lot == 0.0 { String::new() } else { format!("; whole lots of {}", rounded(settings.lot)) };
    [said, cap, position, lot].concat()
}

fn costs(settings: &Settings) -> String {
    let slippage = match settings.slippage {
        Slippage::FixedBps(bps) => format!("slippage {} bps", rounded(bps)),
        Slippage::VolumeImpact(coef) => format!("slippage by volume, coefficient {}", rounded(coef)),
    };
    let maker = match settings.entry_order {
        EntryOrder::Limit { .. } => format!(", a limit's entry {} bps", rounded(settings.maker_bps)),
        _ => String::new(),
    };
    let funding = if settings.funding { "funding charged where it is supplied" } else { "no funding" };
    format!("fee {} bps a fill{maker}; {slippage}; {funding}", rounded(settings.taker_bps))
}

fn risk(settings: &Settings) -> String {
    let levels = [
        ("stop loss", settings.stop_loss_pct),
        ("trailing stop", settings.trailing_stop_pct),
        ("take profit", settings.take_profit_pct),
    ];
    let mut said: Vec<String> =
        levels.into_iter().filter_map(|(name, pct)| Some(format!("{name} {}%", rounded(pct?)))).collect();
    if settings.liquidation {
        said.push("liquidation where the equity would be 0".to_owned());
    }
    if said.is_empty() {
        "no stops and no target".to_owned()
    } else {
        said.join(", ")
    }
}

fn entries(settings: &Settings) -> String {
    let level = |pct: f64| match pct {
        0.0 => "at the deciding close".to_owned(),
        _ => format!("{}% {} the deciding close", rounded(pct.abs()), if pct > 0.0 { "over" } else { "under" }),
    };
    let order = match settings.entry_order {
        EntryOrder::Market => "market orders, filled at the next open".to_owned(),
        EntryOrder::Limit { level_pct } => format!("limit orders {}", level(level_pct)),
        EntryOrder::Stop { level_pct } => format!("stop orders {}", level(level_pct)),
        EntryOrder::StopLimit { stop_pct, limit_pct } => {
            format!("stop-limit orders, the stop {}, the limit {}", level(stop_pct), level(limit_pct))
        }
    };
    let delay = match settings.delay {
        0 => String::new(),
        bars => format!("; orders wait {}", counted(bars, "bar", "bars")),
    };
    let partial = match settings.partial_fills {
        false => String::new(),
        true => format!("; at most {}% of a bar's volume", rounded(settings.max_participation * 100.0)),
    };
    [order, delay, partial].concat()
}
