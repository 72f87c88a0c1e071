//! Settings of every kind; all numbers are finite, as the domain has it.

use oracle::lists::dice::{sizing_of, Dice};
use oracle::lists::orders::some_order;
use oracle::lists::runs::lively_settings;
use oracle::spec::{Risk, Slippage};
use oracle::Settings;

use super::edge;

/// Mostly settings under which a run trades often; some with odd numbers in them.
pub fn some(dice: &mut Dice) -> Settings {
    let lively = lively_settings(dice);
    match dice.below(10) {
        0..=5 => lively,
        6 => slow(dice, lively),
        7 => tiny(dice, lively),
        8 => leveraged(dice, lively),
        _ => odd(dice, lively),
    }
}

/// Some with a lot: tiny ones, of which a quantity holds 2^53 and more, and huge ones, of which it holds none.
pub fn in_lots(dice: &mut Dice, settings: Settings) -> Settings {
    let lot = match dice.below(10) {
        0..=5 => 0.0,
        6 => dice.pick(&[-0.0, 1.0, 0.1, 0.01, 0.001]),
        7 => dice.pick(&[0.1, 0.01, 0.25, 1.0, 3.7, 10.0]),
        8 => dice.pick(&[1e-12, 1e-14, 1e-15, 1e-16, 1e-17, 1e6, 1e9]),
        _ => edge(dice).abs(),
    };
    Settings { lot, ..settings }
}

/// Delays and warmups.
fn slow(dice: &mut Dice, settings: Settings) -> Settings {
    Settings {
        warmup: dice.pick(&[0, 1, 7, 20, u32::MAX]),
        delay: dice.pick(&[1, 2, 3, 5, u32::MAX]),
        ..settings
    }
}

/// Entries around EPS.
fn tiny(dice: &mut Dice, settings: Settings) -> Settings {
    let small = f64::EPSILON;
    let qty = dice.pick(&[small, small.next_up(), small.next_down(), 1e-16, 3e-16, 1e-300]);
    Settings {
        sizing: sizing_of(1, qty, 0),
        ..settings
    }
}

/// Positions so large that they are liquidated.
fn leveraged(dice: &mut Dice, settings: Settings) -> Settings {
    Settings {
        sizing: sizing_of(0, dice.pick(&[5.0, 20.0, 100.0]), 0),
        risk: Risk {
            stop_loss_pct: None,
            max_leverage: Some(dice.pick(&[3.0, 10.0, 50.0])),
            max_position_pct: None,
            liquidation: true,
            ..settings.risk
        },
        taker_bps: dice.pick(&[0.0, -10.0, 4.5]),
        partial_fills: false,
        ..settings
    }
}

/// Levels at zero, for prices around it.
pub fn to_zero(dice: &mut Dice) -> Settings {
    let lively = lively_settings(dice);
    Settings {
        sizing: sizing_of(0, 0.5, 0),
        risk: Risk {
            stop_loss_pct: dice.pick(&[None, Some(100.0), Some(-100.0)]),
            trailing_stop_pct: dice.pick(&[None, Some(100.0), Some(-100.0), Some(50.0)]),
            take_profit_pct: dice.pick(&[None, Some(100.0), Some(-100.0)]),
            ..lively.risk
        },
        partial_fills: false,
        warmup: 0,
        ..lively
    }
}

/// Half of the entries away from the market; levels at the edges now and then, and at zero for prices around it.
pub fn ordered(dice: &mut Dice, settings: Settings, zeros: bool) -> Settings {
    if dice.percent(50) {
        return settings;
    }
    let usual = some_order(dice, settings);
    let mut pct = |usual: f64| match dice.below(if zeros { 4 } else { 20 }) {
        0 => dice.pick(&[-100.0, -200.0, 100.0, -99.9]),
        1 => edge(dice),
        _ => usual,
    };
    let (level_pct, limit_pct) = (pct(usual.level_pct), pct(usual.limit_pct));
    Settings {
        level_pct,
        limit_pct,
        maker_bps: if dice.percent(5) { edge(dice) } else { usual.maker_bps },
        ..usual
    }
}

/// Numbers at the edges, each setting by chance.
fn odd(dice: &mut Dice, lively: Settings) -> Settings {
    let mut float = |usual: f64| if dice.percent(40) { edge(dice) } else { usual };
    let capital = float(lively.capital);
    let taker_bps = float(lively.taker_bps);
    let participation = float(lively.participation);
    let mut level = |usual: Option<f64>| if dice.percent(40) { Some(edge(dice)) } else { usual };
    let risk = Risk {
        stop_loss_pct: level(lively.risk.stop_loss_pct),
        trailing_stop_pct: level(lively.risk.trailing_stop_pct),
        take_profit_pct: level(lively.risk.take_profit_pct),
        max_leverage: level(lively.risk.max_leverage),
        max_position_pct: level(lively.risk.max_position_pct),
        liquidation: lively.risk.liquidation,
    };
    let kind = dice.below(4);
    let value = edge(dice);
    let sizing = match dice.below(3) {
        0 => sizing_of(kind, value, dice.pick(&[0, 1, 2, 3, 14, 60])),
        _ => lively.sizing,
    };
    let slippage = match dice.below(6) {
        0 => Slippage::FixedBps { bps: edge(dice) },
        1 => Slippage::VolumeImpact { coef: edge(dice) },
        _ => lively.slippage,
    };
    Settings {
        capital,
        taker_bps,
        participation,
        risk,
        sizing,
        slippage,
        ..lively
    }
}
