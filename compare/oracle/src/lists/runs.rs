//! The lists of whole runs.

use super::dice::{sizing_of, Dice};
use super::rules::slot_words;
use super::trees::{always, bars_since, close, compare, negated, never, number, prev, slot, Wood};
use crate::answers::bare_settings;
use crate::data::Candle;
use crate::spec::{Condition, OrderType, Risk, Sizing, Slippage};
use crate::table::Table;
use crate::words::{hex_of_bytes, Line};
use crate::Settings;

/// A bar as the caller hands it over: candle, slots, and mark and rate where funding is supplied.
#[derive(Debug, Clone)]
pub struct Bar {
    pub candle: Candle,
    pub slots: Vec<Option<f64>>,
    pub funding: Option<(f64, f64)>,
}

fn bar_line(bar: &Bar) -> String {
    let (mark, rate) = bar.funding.unwrap_or((0.0, 0.0));
    let line = slot_words(Line::new().candle(&bar.candle), &bar.slots);
    format!("B {}", line.flag(bar.funding.is_some()).floats(&[mark, rate]).text())
}

/// Settings for a table: K and D are those of the table and, for a volatility target, its lookback.
pub fn settings_for(settings: Settings, table: &Table) -> Settings {
    let lookback = match settings.sizing {
        Sizing::VolTarget { lookback, .. } => lookback as usize,
        _ => 0,
    };
    Settings {
        slots: table.slots,
        depth: table.depth().max(lookback + 1),
        ..settings
    }
}

/// The lines of a run.
pub fn run_lines(settings: &Settings, table: &Table, bars: &[Bar]) -> Vec<String> {
    let mut lines = vec![
        format!("R {}", Line::new().settings(settings).text()),
        format!("T {}", hex_of_bytes(&table.bytes())),
    ];
    lines.extend(bars.iter().map(bar_line));
    lines.push("F".into());
    lines
}

pub(super) fn run(settings: Settings, table: &Table, bars: &[Bar]) -> Vec<String> {
    run_lines(&settings_for(settings, table), table, bars)
}

pub fn trees(
    entry: Condition,
    exit: Condition,
    short_entry: Option<Condition>,
    short_exit: Option<Condition>,
) -> Table {
    Table {
        slots: 0,
        trees: [Some(entry), Some(exit), short_entry, short_exit],
    }
}

pub fn plain() -> Settings {
    Settings {
        capital: 10_000.0,
        sizing: Sizing::FixedFraction { fraction: 0.5 },
        ..bare_settings()
    }
}

/// Bars without slots or funding, from (open, high, low, close).
pub(super) fn bars(list: &[(f64, f64, f64, f64)]) -> Vec<Bar> {
    let bar = |(i, &(open, high, low, close)): (usize, &(f64, f64, f64, f64))| Bar {
        candle: Candle {
            time: 60 * i as i64,
            open,
            high,
            low,
            close,
            volume: 1_000.0,
        },
        slots: Vec::new(),
        funding: None,
    };
    list.iter().enumerate().map(bar).collect()
}

fn level(list: &[f64]) -> Vec<Bar> {
    let four: Vec<(f64, f64, f64, f64)> = list.iter().map(|&x| (x, x, x, x)).collect();
    bars(&four)
}

/// Runs on the edges, and one for each point where document 01 and the Rust differ.
fn edges() -> Vec<String> {
    let hold = || trees(always(), never(), None, None);
    let both = || trees(always(), always(), None, None);
    let six = [100.0, 101.0, 102.0, 101.0, 103.0, 104.0];
    let short = trees(never(), always(), Some(always()), None);
    let held_long = trees(always(), bars_since(2, 2), Some(never()), Some(never()));
    // An entry of at most EPS is dropped; at such prices it would be seen in the cash.
    let tiny = trees(
        negated(bars_since(2, 0)),
        never(),
        Some(bars_since(2, 0)),
        Some(always()),
    );
    let eps_quantity = Sizing::FixedQty { qty: 1e-16 };
    let high = [1e17, 2e17, 3e17, 2e17, 1e17];
    let funded = Settings {
        funding: true,
        ..plain()
    };
    let mut charged = level(&six);
    for (bar, rate) in charged.iter_mut().zip([0.01, -0.02, 0.5, 0.0, 0.001, -0.1]) {
        bar.funding = Some((bar.candle.close + 1.0, rate));
    }
    let mut odd_mark = level(&six);
    for (bar, mark) in odd_mark.iter_mut().zip([0.0, -5.0, 0.0, -100.0, 100.0, 1e300]) {
        bar.funding = Some((mark, 0.125));
    }
    let through_zero = [5.0, 2.0, 0.0, -3.0, -1.0, 2.0, 4.0];
    let stops = |risk: Risk| Settings {
        risk,
        taker_bps: 10.0,
        ..plain()
    };
    let gap = bars(&[
        (100.0, 101.0, 99.0, 100.0),
        (100.0, 102.0, 98.0, 101.0),
        (70.0, 72.0, 68.0, 71.0),
        (71.0, 90.0, 70.0, 80.0),
    ]);
    let stop = Risk {
        stop_loss_pct: Some(25.0),
        ..Risk::default()
    };
    let leverage = Risk {
        max_leverage: Some(4.0),
        liquidation: true,
        ..Risk::default()
    };
    let four_fold = Settings {
        sizing: Sizing::FixedFraction { fraction: 4.0 },
        ..stops(leverage)
    };
    let fall = bars(&[
        (100.0, 101.0, 99.0, 100.0),
        (100.0, 100.0, 90.0, 91.0),
        (90.0, 91.0, 74.0, 76.0),
        (76.0, 77.0, 75.0, 76.0),
    ]);
    let target = |lookback| Settings {
        sizing: sizing_of(3, 0.01, lookback),
        ..plain()
    };
    [
        run(plain(), &both(), &[]),
        run(plain(), &both(), &level(&six[..1])),
        run(plain(), &both(), &level(&six)),
        run(plain(), &hold(), &level(&six)),
        run(
            Settings {
                capital: 0.0,
                ..plain()
            },
            &both(),
            &level(&six),
        ),
        run(
            Settings {
                capital: -5.0,
                ..plain()
            },
            &both(),
            &level(&six),
        ),
        run(Settings { warmup: 3, ..plain() }, &both(), &level(&six)),
        run(Settings { warmup: 6, ..plain() }, &both(), &level(&six)),
        run(Settings { delay: 1, ..plain() }, &both(), &level(&[six, six].concat())),
        run(
            Settings { delay: 3, ..plain() },
            &held_long,
            &level(&[six, six, six].concat()),
        ),
        run(plain(), &short, &level(&six)),
        run(
            Settings {
                sizing: eps_quantity,
                ..plain()
            },
            &tiny,
            &level(&high),
        ),
        run(funded, &hold(), &level(&six)),
        run(funded, &hold(), &charged),
        run(
            Settings {
                funding: false,
                ..funded
            },
            &hold(),
            &charged,
        ),
        run(funded, &hold(), &odd_mark),
        run(plain(), &hold(), &level(&through_zero)),
        run(
            plain(),
            &trees(never(), never(), Some(always()), Some(never())),
            &level(&through_zero),
        ),
        run(stops(stop), &hold(), &gap),
        run(four_fold, &hold(), &fall),
        run(target(0), &hold(), &level(&six)),
        run(target(1), &hold(), &level(&six)),
        run(target(2), &hold(), &level(&six)),
        run(target(4), &hold(), &level(&[six, six].concat())),
        run(target(3), &hold(), &level(&[100.0; 6])),
        run(
            Settings {
                partial_fills: true,
                participation: 0.0,
                ..plain()
            },
            &both(),
            &level(&six),
        ),
        run(
            Settings {
                partial_fills: true,
                participation: 0.01,
                ..plain()
            },
            &both(),
            &level(&six),
        ),
        in_lots(),
    ]
    .concat()
}

/// Runs with a lot: whole ones, tenths, part fills that lose a lot, probes in lots, too few, too many.
fn in_lots() -> Vec<String> {
    let both = trees(always(), always(), None, None);
    let short = trees(never(), never(), Some(always()), Some(always()));
    let prices = [100.0, 101.5, 99.75, 103.0, 98.5, 104.0];
    let with = |lot: f64, settings: Settings| Settings { lot, ..settings };
    let partial = Settings {
        partial_fills: true,
        participation: 0.0043,
        ..plain()
    };
    let by_volume = Settings {
        slippage: Slippage::VolumeImpact { coef: 0.1 },
        ..plain()
    };
    let target = Settings {
        sizing: sizing_of(3, 0.01, 2),
        ..plain()
    };
    let lots = [3.0, 0.1, 0.01, -0.0, 1e300, 1e-12, 1e-15, 5e-324];
    let whole = lots.map(|lot| run(with(lot, plain()), &both, &level(&prices)));
    let others = [
        partial,
        by_volume,
        target,
        Settings {
            partial_fills: true,
            ..by_volume
        },
    ]
    .map(|settings| {
        [0.1, 0.25, 1e-15]
            .map(|lot| run(with(lot, settings), &both, &level(&prices)))
            .concat()
    });
    let shorts = [3.0, 1e-15].map(|lot| run(with(lot, by_volume), &short, &level(&prices)));
    [whole.concat(), others.concat(), shorts.concat()].concat()
}

/// The smallest run on each point where document 01 or a request and the Rust differ; docs/DIFFERENCES.md gives their numbers.
pub fn differences() -> Vec<String> {
    let tiny = Settings {
        sizing: Sizing::FixedQty { qty: 1e-16 },
        ..plain()
    };
    let fee = Settings {
        taker_bps: 10.0,
        ..plain()
    };
    let both = trees(always(), always(), None, None);
    let hold = trees(always(), never(), None, None);
    [
        run(
            plain(),
            &trees(never(), always(), Some(always()), None),
            &level(&[100.0; 3]),
        ),
        run(Settings { delay: 1, ..plain() }, &both, &level(&[100.0; 5])),
        run(
            tiny,
            &hold,
            &bars(&[(1e17, 1e17, 1e17, 1e17), (1e17, 2e17, 1e17, 2e17)]),
        ),
        run(
            plain(),
            &hold,
            &bars(&[(100.0, 100.0, 100.0, 100.0), (100.0, 100.0, 99.0, 99.0)]),
        ),
        run(
            Settings {
                funding: true,
                ..plain()
            },
            &hold,
            &level(&[100.0]),
        ),
        run(fee, &hold, &level(&[100.0; 2])),
        run(Settings { lot: 3.0, ..plain() }, &hold, &level(&[100.0; 2])),
        run(
            Settings {
                order_type: OrderType::StopLimit,
                ..plain()
            },
            &hold,
            &bars(&[(100.0, 100.0, 100.0, 100.0), (100.0, 101.0, 101.0, 101.0)]),
        ),
    ]
    .concat()
}

/// Bars of a random walk in quarters; a share of them supplies funding, and slots are near the close.
pub fn walk(dice: &mut Dice, count: u64, slots: usize, swing: u64, funding: u64) -> Vec<Bar> {
    let mut last = dice.between(320, 480) as f64 / 4.0;
    let mut step = |time: u64| {
        let mut moved = |from: f64, by: u64| (from + (dice.below(2 * by + 1) as f64 - by as f64) / 4.0).max(0.5);
        let open = moved(last, swing / 3 + 1);
        let close = moved(open, swing);
        last = close;
        let near = |dice: &mut Dice| close + (dice.below(17) as f64 - 8.0) / 4.0;
        Bar {
            slots: (0..slots).map(|_| dice.percent(90).then(|| near(dice))).collect(),
            funding: dice.percent(funding).then(|| (close, dice.span(-0.002, 0.002))),
            candle: dice.bar(60 * time as i64, open, close),
        }
    };
    (0..count).map(&mut step).collect()
}

/// Rules that trade often.
pub fn lively_table(dice: &mut Dice) -> Table {
    let up = |n: u32| Condition::Rising((close(), n));
    let down = |n: u32| Condition::Falling((close(), n));
    let n = dice.between(1, 4) as u32;
    let cross = |kind: u64| compare(kind, slot(0), slot(1));
    let late = |c: Condition| Condition::Any(vec![c, bars_since(2, 4)]);
    match dice.below(5) {
        0 => trees(up(n), down(1), Some(down(n)), Some(up(1))),
        1 => Table {
            slots: 2,
            trees: [
                Some(cross(22)),
                Some(late(cross(23))),
                Some(cross(23)),
                Some(late(cross(22))),
            ],
        },
        2 => trees(
            compare(16, close(), prev(close(), n)),
            bars_since(0, n),
            Some(always()),
            Some(bars_since(2, n)),
        ),
        3 => trees(always(), bars_since(4, n + 1), None, None),
        _ => {
            let wood = Wood {
                slots: dice.below(3),
                constants: vec![90.0, 100.0, 110.0, 1.0, 2.0, 0.5],
                fields: 7,
                back: 4,
                nodes: 40,
            };
            wood.table(dice, 2)
        }
    }
}

pub fn lively_settings(dice: &mut Dice) -> Settings {
    let kind = dice.below(5);
    let percent = |dice: &mut Dice, chance: u64| {
        let level = dice.between(1, 16) as f64 / 2.0;
        dice.maybe(chance, level)
    };
    let leverage = dice.pick(&[0.5, 2.0, 5.0, 20.0]);
    let position = dice.pick(&[20.0, 150.0, 1_000.0]);
    let stop = percent(dice, 50);
    let lookback = dice.between(2, 6) as u32;
    Settings {
        capital: dice.pick(&[10_000.0, 2_500.0, 137.25]),
        warmup: dice.below(4) as u32,
        delay: dice.pick(&[0, 0, 0, 0, 1, 2]),
        sizing: match dice.sizing(kind, false) {
            Sizing::VolTarget { target_vol, .. } => Sizing::VolTarget { target_vol, lookback },
            other => other,
        },
        taker_bps: dice.pick(&[0.0, 4.5, 10.0]),
        slippage: match dice.slippage(false) {
            Slippage::FixedBps { bps } => Slippage::FixedBps { bps: bps.min(50.0) },
            other => other,
        },
        funding: dice.percent(40),
        risk: Risk {
            stop_loss_pct: if kind == 4 { Some(stop.unwrap_or(3.0)) } else { stop },
            trailing_stop_pct: percent(dice, 25),
            take_profit_pct: percent(dice, 40),
            max_leverage: dice.maybe(60, leverage),
            max_position_pct: dice.maybe(30, position),
            liquidation: dice.percent(50),
        },
        partial_fills: dice.percent(30),
        participation: dice.pick(&[0.001, 0.01, 0.25]),
        ..bare_settings()
    }
}

/// Some dozens of short runs: the edges, then lively rules over random walks.
pub fn runs(seed: u64) -> Vec<String> {
    let dice = &mut Dice::new(seed);
    let mut lines = edges();
    for _ in 0..40 {
        let (table, settings) = (lively_table(dice), lively_settings(dice));
        let (count, swing) = (dice.between(12, 26), dice.pick(&[4, 12, 30]));
        let supplied = if settings.funding {
            dice.pick(&[100, 100, 100, 60])
        } else {
            20
        };
        let bars = walk(dice, count, table.slots, swing, supplied);
        lines.extend(run(settings, &table, &bars));
    }
    lines
}

/// Bars that keep near 100: a walk in quarters, pulled back.
fn steady_walk(dice: &mut Dice, count: u64) -> Vec<Bar> {
    let mut last = 100.0;
    let mut step = |time: u64| {
        let quarters = |dice: &mut Dice, by: u64| (dice.below(2 * by + 1) as f64 - by as f64) / 4.0;
        let open = last + quarters(dice, 3);
        let close = open + quarters(dice, 8) + ((100.0 - open) / 5.0).round() / 4.0;
        last = close;
        let (above, below) = (dice.below(5) as f64 / 4.0, dice.below(5) as f64 / 4.0);
        Bar {
            candle: Candle {
                time: 60 * time as i64,
                open,
                high: open.max(close) + above,
                low: open.min(close) - below,
                close,
                volume: dice.between(0, 3_000) as f64,
            },
            slots: Vec::new(),
            funding: Some((close, dice.span(-0.0002, 0.0002))),
        }
    };
    (0..count).map(&mut step).collect()
}

/// One long run in which every reason to leave occurs, and in which both readings agree but for the last fee. The fee is a
/// rebate: it alone leaves something to trade with after a liquidation.
pub fn run_long(seed: u64) -> Vec<String> {
    let dice = &mut Dice::new(seed);
    let wanted = |kind: u64, level: f64| compare(kind, slot(0), number(level));
    let late = |c: Condition| Condition::Any(vec![c, bars_since(0, 12)]);
    let table = Table {
        slots: 1,
        trees: [
            Some(Condition::All(vec![wanted(16, 0.5), Condition::Rising((close(), 1))])),
            Some(late(wanted(17, -0.75))),
            Some(Condition::All(vec![wanted(17, -0.5), Condition::Falling((close(), 2))])),
            Some(late(wanted(16, 0.75))),
        ],
    };
    let settings = Settings {
        capital: 500.0,
        warmup: 2,
        sizing: Sizing::FixedCash { cash: 20_000.0 },
        taker_bps: -10.0,
        slippage: Slippage::FixedBps { bps: 1.0 },
        funding: true,
        risk: Risk {
            stop_loss_pct: Some(4.0),
            trailing_stop_pct: Some(4.5),
            take_profit_pct: Some(5.5),
            max_leverage: Some(30.0),
            max_position_pct: None,
            liquidation: true,
        },
        ..bare_settings()
    };
    let mut bars = steady_walk(dice, 1_600);
    let closes: Vec<f64> = bars.iter().map(|bar| bar.candle.close).collect();
    for (i, bar) in bars.iter_mut().enumerate() {
        // The slot leans towards what comes: an indicator that is right more often than not, and absent at times.
        let ahead = closes
            .get(i + 4)
            .map_or(0.0, |later| (later - closes[i]) / closes[i] * 40.0);
        let guess = (ahead + dice.span(-3.0, 3.0)).clamp(-2.0, 2.0);
        bar.slots = vec![dice.percent(95).then_some((guess * 64.0).round() / 64.0)];
    }
    run(settings, &table, &bars)
}
