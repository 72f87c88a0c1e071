//! Runs whose entries are limits, stops and stop-limits: the edges of each, then lively ones. The driver makes its random runs from the
//! same parts.

use super::dice::Dice;
use super::runs::{bars, lively_settings, lively_table, plain, run, trees, walk, Bar};
use super::trees::{always, bars_since, never};
use crate::data::Candle;
use crate::spec::{OrderType, Risk, Sizing, Slippage};
use crate::table::Table;
use crate::words::ORDER_TYPES;
use crate::Settings;

type Prices = (f64, f64, f64, f64);

/// The deciding bar: its close is what percentages are of.
const DECIDING: Prices = (100.0, 100.0, 100.0, 100.0);

/// The level that a percentage gives.
fn level_of(close: f64, pct: f64) -> f64 {
    close * (1.0 + pct / 100.0)
}

fn ordered(order_type: OrderType, level_pct: f64, limit_pct: f64) -> Settings {
    Settings {
        order_type,
        level_pct,
        limit_pct,
        taker_bps: 10.0,
        maker_bps: 2.0,
        ..plain()
    }
}

fn hold(short: bool) -> Table {
    match short {
        false => trees(always(), never(), None, None),
        true => trees(never(), never(), Some(always()), Some(never())),
    }
}

/// Bars around a level that is come to from above: touched, run through, missed by one float, opened on, opened under, opened just over,
/// met by a bar that is the level alone, and a low over the open.
fn from_above(level: f64) -> Vec<Prices> {
    vec![
        (level + 6.0, level + 7.0, level, level + 5.0),
        (level + 6.0, level + 7.0, level - 3.0, level - 2.0),
        (level + 6.0, level + 7.0, level.next_up(), level + 5.0),
        (level, level + 2.0, level - 2.0, level + 1.0),
        (level - 4.0, level - 3.0, level - 6.0, level - 5.0),
        (level.next_up(), level + 2.0, level, level + 1.0),
        (level, level, level, level),
        (level - 1.0, level + 3.0, level + 1.0, level + 2.0),
    ]
}

/// The same, come to from below.
fn from_below(level: f64) -> Vec<Prices> {
    vec![
        (level - 6.0, level, level - 7.0, level - 5.0),
        (level - 6.0, level + 3.0, level - 7.0, level + 2.0),
        (level - 6.0, level.next_down(), level - 7.0, level - 5.0),
        (level, level + 2.0, level - 2.0, level - 1.0),
        (level + 4.0, level + 6.0, level + 3.0, level + 5.0),
        (level.next_down(), level, level - 2.0, level - 1.0),
        (level, level, level, level),
        (level + 1.0, level - 1.0, level - 3.0, level - 2.0),
    ]
}

/// A bar around a level, then one that stays where nothing is reached, then one that runs through everything.
fn around(settings: Settings, short: bool, each: Vec<Prices>) -> Vec<String> {
    let one = |bar: Prices| {
        run(
            settings,
            &hold(short),
            &bars(&[DECIDING, bar, DECIDING, (100.0, 160.0, 40.0, 100.0)]),
        )
    };
    each.into_iter().flat_map(one).collect()
}

fn limits_and_stops() -> Vec<String> {
    let (under, over) = (-6.25, 6.25);
    let level = |pct| level_of(100.0, pct);
    [
        around(ordered(OrderType::Limit, under, 0.0), false, from_above(level(under))),
        around(ordered(OrderType::Limit, over, 0.0), true, from_below(level(over))),
        around(ordered(OrderType::Stop, over, 0.0), false, from_below(level(over))),
        around(ordered(OrderType::Stop, under, 0.0), true, from_above(level(under))),
        // On the other side of the close: met by the next bar, at its open.
        around(ordered(OrderType::Limit, over, 0.0), false, vec![DECIDING]),
        around(ordered(OrderType::Limit, under, 0.0), true, vec![DECIDING]),
        around(ordered(OrderType::Stop, under, 0.0), false, vec![DECIDING]),
        around(ordered(OrderType::Stop, over, 0.0), true, vec![DECIDING]),
    ]
    .concat()
}

/// Around a stop-limit's stop; between stop and limit; on the limit; past it, and back to it, and not; then, where the low is over the open
/// (for a short the high under it), a price within the limit on a bar that does not come to the limit.
fn stop_limits() -> Vec<String> {
    let long = ordered(OrderType::StopLimit, 6.25, 12.5);
    let (stop, limit) = (106.25, 112.5_f64);
    let past = |low: f64| (limit + 2.0, limit + 3.0, low, limit + 1.0);
    let mut bars = from_below(stop);
    bars.extend([
        past(limit),
        past(limit.next_up()),
        past(limit - 1.0),
        (limit, limit + 1.0, limit - 1.0, limit),
    ]);
    bars.push((stop + 1.0, limit + 2.0, limit + 1.0, limit + 1.0));
    let down = |(open, high, low, close): Prices| (200.0 - open, 200.0 - low, 200.0 - high, 200.0 - close);
    let mirrored: Vec<Prices> = bars.iter().copied().map(down).collect();
    // A limit on the near side of the stop: the stop's price is always past it.
    let near = ordered(OrderType::StopLimit, 6.25, 3.125);
    let under = |low: f64| (100.0, 107.0, low, 106.0);
    let near_bars = [103.125_f64, 103.125_f64.next_up(), 99.0].map(under).to_vec();
    let near_down: Vec<Prices> = near_bars.iter().copied().map(down).collect();
    let short = |settings: Settings| Settings {
        level_pct: -settings.level_pct,
        limit_pct: -settings.limit_pct,
        ..settings
    };
    [
        around(long, false, bars),
        around(short(long), true, mirrored),
        around(near, false, near_bars),
        around(short(near), true, near_down),
        no_memory(long),
    ]
    .concat()
}

/// The stop is reached past the limit; the next bar is within the limit and does not reach the stop; the last does.
fn no_memory(settings: Settings) -> Vec<String> {
    let list = [
        DECIDING,
        (120.0, 125.0, 115.0, 118.0),
        (104.0, 106.0, 101.0, 105.0),
        (105.0, 108.0, 104.0, 107.0),
    ];
    run(settings, &hold(false), &bars(&list))
}

/// Bars that run far both ways, and bars that stay, in turn.
fn both_ways() -> Vec<Prices> {
    let wide = |x: f64| [(x, x + 9.0, x - 9.0, x), (x, x + 1.0, x - 1.0, x)];
    [100.0, 99.0, 101.0, 100.0].into_iter().flat_map(wide).collect()
}

/// Costs, caps and delays around a limit that the second bar meets; what is reached and sizes to nothing is dropped, and the bar decides.
fn with_terms() -> Vec<String> {
    let limit = ordered(OrderType::Limit, -6.25, 0.0);
    let stop = ordered(OrderType::Stop, 6.25, 0.0);
    let list = bars(&both_ways());
    let partial = |participation: f64| {
        move |s: Settings| Settings {
            partial_fills: true,
            participation,
            ..s
        }
    };
    let with: Vec<Box<dyn Fn(Settings) -> Settings>> = vec![
        Box::new(|s| s),
        Box::new(|s| Settings { maker_bps: -3.0, ..s }),
        Box::new(|s| Settings {
            slippage: Slippage::FixedBps { bps: 25.0 },
            ..s
        }),
        Box::new(|s| Settings {
            slippage: Slippage::VolumeImpact { coef: 0.5 },
            ..s
        }),
        Box::new(partial(0.01)),
        Box::new(partial(0.0)),
        Box::new(|s| Settings {
            sizing: Sizing::FixedQty { qty: 1e-16 },
            ..s
        }),
        Box::new(|s| Settings {
            sizing: Sizing::VolTarget {
                target_vol: 0.01,
                lookback: 3,
            },
            ..s
        }),
        Box::new(|s| Settings { delay: 2, ..s }),
        Box::new(|s| Settings {
            risk: Risk {
                stop_loss_pct: Some(2.0),
                take_profit_pct: Some(3.0),
                ..Risk::default()
            },
            ..s
        }),
    ];
    let round = trees(always(), bars_since(2, 1), None, None);
    let round_short = trees(never(), never(), Some(always()), Some(bars_since(2, 1)));
    let each = |change: &Box<dyn Fn(Settings) -> Settings>| {
        [
            run(change(limit), &round, &list),
            run(change(stop), &round, &list),
            run(
                change(Settings {
                    level_pct: 6.25,
                    ..limit
                }),
                &round_short,
                &list,
            ),
            run(
                change(Settings {
                    level_pct: -6.25,
                    ..stop
                }),
                &round_short,
                &list,
            ),
        ]
        .concat()
    };
    with.iter().flat_map(each).collect()
}

/// Each kind in lots, on bars that reach it and bars that do not: whole lots, tenths, too few, and too many where it is reached.
fn in_lots() -> Vec<String> {
    let list = bars(&both_ways());
    let long = trees(always(), bars_since(2, 1), None, None);
    let short = trees(never(), never(), Some(always()), Some(bars_since(2, 1)));
    let kinds = [
        ordered(OrderType::Limit, -6.25, 0.0),
        ordered(OrderType::Stop, 6.25, 0.0),
        ordered(OrderType::StopLimit, 6.25, 7.5),
    ];
    let each = |lot: f64, settings: Settings| {
        let down = Settings {
            level_pct: -settings.level_pct,
            limit_pct: -settings.limit_pct,
            ..settings
        };
        [(settings, &long), (down, &short)]
            .map(|(settings, table)| run(Settings { lot, ..settings }, table, &list))
            .concat()
    };
    let lots = [3.0, 0.1, 1e300, 1e-15].into_iter();
    lots.flat_map(|lot| kinds.map(|settings| each(lot, settings)).concat())
        .collect()
}

/// Levels at zero of either sign, below it, and past every number.
fn odd_levels() -> Vec<String> {
    let list = bars(&[
        DECIDING,
        (5.0, 6.0, -0.0, 1.0),
        (0.0, 1.0, -1.0, -0.0),
        (-0.0, 2.0, -2.0, 1.0),
        (3.0, 4.0, -4.0, 2.0),
    ]);
    let zero = [-100.0, -200.0, 1e300, -1e300].into_iter();
    let each = |pct: f64| {
        let kinds = ORDER_TYPES[1..].iter();
        kinds
            .flat_map(|&kind| {
                [false, true]
                    .map(|short| run(ordered(kind, pct, -pct), &hold(short), &list))
                    .concat()
            })
            .collect::<Vec<String>>()
    };
    let great = bars(&[(1e308, 1e308, 1e308, 1e308), (1e308, 1.5e308, 5e307, 1e308)]);
    let past = ORDER_TYPES[1..]
        .iter()
        .flat_map(|&kind| run(ordered(kind, 1_000.0, 1_000.0), &hold(false), &great));
    zero.flat_map(each).chain(past).collect()
}

/// An order kind for entries, with levels on either side of the close.
pub fn some_order(dice: &mut Dice, settings: Settings) -> Settings {
    let mut pct = || dice.pick(&[-5.0, -2.0, -0.75, -0.1, 0.0, 0.1, 0.5, 1.5, 5.0]);
    let (level_pct, limit_pct) = (pct(), pct());
    Settings {
        order_type: dice.pick(&ORDER_TYPES[1..]),
        level_pct,
        limit_pct,
        maker_bps: dice.pick(&[0.0, 1.0, 2.5, -1.5]),
        ..settings
    }
}

/// Some bars are laid around a level that an order of one of the bars before would have.
pub fn around_levels(dice: &mut Dice, settings: &Settings, bars: &mut [Bar]) {
    for i in 1..bars.len() {
        let back = dice.between(1, 4.min(i as u64)) as usize;
        let pct = dice.pick(&[settings.level_pct, settings.level_pct, settings.limit_pct]);
        let level = level_of(bars[i - back].candle.close, pct);
        if dice.percent(60) {
            lay(dice, level, &mut bars[i].candle);
        }
    }
}

/// A bar around a level: touched, run through, missed by one float, opened on, gapped past, the level alone, in no order, or its zero's other
/// sign. Left as it is where it would not be of finite numbers.
fn lay(dice: &mut Dice, level: f64, candle: &mut Candle) {
    let by = (level.abs() * dice.pick(&[0.001, 0.01, 0.03])).max(f64::MIN_POSITIVE);
    let at = |steps: f64| level + steps * by;
    let (open, high, low, close) = match dice.below(11) {
        0 => (at(2.0), at(3.0), level, at(1.0)),
        1 => (at(2.0), at(3.0), at(-1.0), at(1.0)),
        2 => (at(2.0), at(3.0), level.next_up(), at(1.0)),
        3 => (at(-2.0), level, at(-3.0), at(-1.0)),
        4 => (at(-2.0), at(1.0), at(-3.0), at(-1.0)),
        5 => (at(-2.0), level.next_down(), at(-3.0), at(-1.0)),
        6 => (level, at(1.0), at(-1.0), at(dice.pick(&[-1.0, 1.0]))),
        7 => (at(3.0), at(4.0), at(1.0), at(2.0)),
        8 => (at(-3.0), at(-1.0), at(-4.0), at(-2.0)),
        9 => (at(-1.0), at(2.0), at(3.0), at(1.0)),
        _ => (-0.0 * level, level, level, level),
    };
    if [open, high, low, close].iter().all(|x| x.is_finite()) {
        (candle.open, candle.high, candle.low, candle.close) = (open, high, low, close);
    }
}

/// The edges of each order kind, then lively runs.
pub fn orders(seed: u64) -> Vec<String> {
    let dice = &mut Dice::new(seed);
    let mut lines = [limits_and_stops(), stop_limits(), with_terms(), odd_levels(), in_lots()].concat();
    for _ in 0..30 {
        let (table, settings) = (lively_table(dice), lively_settings(dice));
        let settings = some_order(dice, settings);
        let (count, swing) = (dice.between(12, 26), dice.pick(&[4, 12, 30]));
        let mut bars = walk(dice, count, table.slots, swing, if settings.funding { 100 } else { 20 });
        around_levels(dice, &settings, &mut bars);
        lines.extend(run(settings, &table, &bars));
    }
    lines
}
