//! Lists for the leaves: first the edges, one by one, then mixed cases.

use super::dice::{sizing_of, Dice, ODD};
use crate::data::Candle;
use crate::spec::{Risk, Sizing, Slippage};
use crate::words::Line;

type List = Vec<String>;

fn tag(number: u64) -> Line {
    Line::new().word(number)
}

// ---- size

fn size_case(sizing: Sizing, risk: &Risk, equity: f64, price: f64, rv: Option<f64>) -> String {
    tag(1)
        .sizing(sizing)
        .risk(risk)
        .float(equity)
        .float(price)
        .optional(rv)
        .text()
}

fn with_stop(stop: f64) -> Risk {
    Risk {
        stop_loss_pct: Some(stop),
        ..Risk::default()
    }
}

/// Every kind with every odd value; odd prices and equities; odd caps; then mixed.
pub fn size(seed: u64) -> List {
    let dice = &mut Dice::new(seed);
    let mut list = List::new();
    for kind in 0..5 {
        for value in ODD {
            list.push(size_case(
                sizing_of(kind, value, 20),
                &with_stop(5.0),
                10_000.0,
                100.0,
                Some(0.02),
            ));
        }
    }
    for odd in ODD {
        let fraction = Sizing::FixedFraction { fraction: 0.5 };
        let volatility = sizing_of(3, 0.02, 20);
        list.push(size_case(fraction, &Risk::default(), odd, 100.0, None));
        list.push(size_case(fraction, &Risk::default(), 10_000.0, odd, None));
        list.push(size_case(sizing_of(4, 1.0, 0), &with_stop(odd), 10_000.0, 100.0, None));
        list.push(size_case(volatility, &Risk::default(), 10_000.0, 100.0, Some(odd)));
        let leverage = Risk {
            max_leverage: Some(odd),
            ..Risk::default()
        };
        list.push(size_case(sizing_of(1, 500.0, 0), &leverage, 10_000.0, 100.0, None));
        let position = Risk {
            max_position_pct: Some(odd),
            ..Risk::default()
        };
        list.push(size_case(sizing_of(1, 500.0, 0), &position, 10_000.0, 100.0, None));
    }
    list.push(size_case(
        sizing_of(3, 0.02, 20),
        &Risk::default(),
        10_000.0,
        100.0,
        None,
    ));
    while list.len() < 480 {
        let kind = dice.below(5);
        let odd = dice.percent(15);
        let sizing = dice.sizing(kind, odd);
        let mut risk = dice.risk();
        if kind == 4 && risk.stop_loss_pct.is_none() {
            risk.stop_loss_pct = Some(dice.price());
        }
        let equity = if dice.percent(90) {
            dice.span(1.0, 50_000.0)
        } else {
            dice.odd()
        };
        let price = dice.rough_price();
        let volatility = dice.span(0.0001, 0.1);
        let rv = dice.maybe(80, volatility);
        list.push(size_case(sizing, &risk, equity, price, rv));
    }
    list
}

// ---- realized volatility

fn vol_case(lookback: u64, closes: &[f64]) -> String {
    tag(2).word(lookback).word(closes.len() as u64).floats(closes).text()
}

fn walk(dice: &mut Dice, rows: u64) -> Vec<f64> {
    let mut close = dice.price();
    let mut step = || {
        close += (dice.below(17) as f64 - 8.0) / 4.0;
        close
    };
    (0..rows).map(|_| step()).collect()
}

/// Lookback 0, 1, 2 and around the rows at hand; flat series; zeros, negatives and odd numbers among the closes.
pub fn vol(seed: u64) -> List {
    let dice = &mut Dice::new(seed);
    let mut list = List::new();
    for rows in 0..6 {
        let closes = walk(dice, rows);
        for lookback in 0..8 {
            list.push(vol_case(lookback, &closes));
        }
    }
    for level in [0.0, 1.0, 100.25, -3.0, 1e300, 5e-324] {
        for lookback in [2, 3, 5] {
            list.push(vol_case(lookback, &[level; 5]));
        }
    }
    list.push(vol_case(4, &[0.0, 0.0, 0.0, 7.0]));
    list.push(vol_case(4, &[0.0, 0.0, 7.0, 0.0]));
    list.push(vol_case(3, &[1.0, 0.0, 1.0]));
    list.push(vol_case(3, &[1.0, -1.0, 1.0]));
    list.push(vol_case(3, &[f64::EPSILON, 1.0, 2.0]));
    list.push(vol_case(3, &[f64::EPSILON.next_up(), 1.0, 2.0]));
    list.push(vol_case(u64::from(u32::MAX), &[1.0, 2.0]));
    for odd in ODD {
        for place in 0..4 {
            let mut closes = [10.0, 11.0, 9.5, 10.25];
            closes[place] = odd;
            list.push(vol_case(4, &closes));
        }
    }
    while list.len() < 320 {
        let rows = if dice.percent(90) {
            dice.between(2, 20)
        } else {
            dice.between(40, 64)
        };
        let mut closes = walk(dice, rows);
        if dice.percent(20) {
            let place = dice.below(rows) as usize;
            closes[place] = dice.odd();
        }
        let lookback = if dice.percent(80) {
            dice.between(2, rows)
        } else {
            dice.between(0, rows + 2)
        };
        list.push(vol_case(lookback, &closes));
    }
    list
}

/// The longest lookback, with as many rows as it takes, one fewer, and one more.
pub fn vol_longest(seed: u64) -> List {
    let dice = &mut Dice::new(seed);
    [4_095, 4_094, 4_096]
        .iter()
        .map(|&rows| vol_case(4_095, &walk(dice, rows)))
        .collect()
}

// ---- slippage

fn slip_case(slippage: Slippage, qty: f64, volume: f64) -> String {
    tag(3).slippage(slippage).float(qty).float(volume).text()
}

/// Every odd number in each of the three places, both kinds; zero and negative volume; then mixed.
pub fn slip(seed: u64) -> List {
    let dice = &mut Dice::new(seed);
    let mut list = List::new();
    for odd in ODD.into_iter().chain([-0.0]) {
        list.push(slip_case(Slippage::FixedBps { bps: odd }, 10.0, 500.0));
        list.push(slip_case(Slippage::VolumeImpact { coef: odd }, 10.0, 500.0));
        list.push(slip_case(Slippage::VolumeImpact { coef: 0.1 }, odd, 500.0));
        list.push(slip_case(Slippage::VolumeImpact { coef: 0.1 }, -10.0, odd));
    }
    while list.len() < 300 {
        let odd = dice.percent(15);
        let slippage = dice.slippage(odd);
        let (qty, volume) = (dice.quantity(), dice.volume());
        list.push(slip_case(slippage, qty, volume));
    }
    list
}

// ---- entry and exit

/// What an entry is given, with a plain case to start from.
struct Entry {
    side: u64,
    raw_price: f64,
    sizing: Sizing,
    risk: Risk,
    slippage: Slippage,
    taker_bps: f64,
    partial: bool,
    participation: f64,
    candle: Candle,
    cash: f64,
    closes: Vec<f64>,
}

fn plain_candle() -> Candle {
    Candle {
        time: 7_200,
        open: 100.0,
        high: 104.0,
        low: 97.0,
        close: 101.5,
        volume: 1_000.0,
    }
}

fn plain_entry() -> Entry {
    Entry {
        side: 0,
        raw_price: 100.0,
        sizing: Sizing::FixedFraction { fraction: 0.5 },
        risk: with_stop(5.0),
        slippage: Slippage::FixedBps { bps: 5.0 },
        taker_bps: 10.0,
        partial: false,
        participation: 0.0,
        candle: plain_candle(),
        cash: 10_000.0,
        closes: Vec::new(),
    }
}

fn entry_case(dice: &mut Dice, entry: &Entry) -> String {
    let (time, fees) = (dice.time(), dice.between(0, 400) as f64 / 8.0);
    let flat = [0.0, dice.price()];
    tag(4)
        .word(entry.side)
        .float(entry.raw_price)
        .sizing(entry.sizing)
        .risk(&entry.risk)
        .slippage(entry.slippage)
        .float(entry.taker_bps)
        .flag(entry.partial)
        .float(entry.participation)
        .candle(&entry.candle)
        .float(entry.cash)
        .floats(&flat)
        .time(time)
        .float(0.0)
        .float(fees)
        .entry_bar(None)
        .float(dice.price())
        .word(dice.between(0, 900))
        .word(entry.closes.len() as u64)
        .floats(&entry.closes)
        .text()
}

/// Each odd number in each place that an entry reads, both sides; the partial-fill cap against NaN and zero; then mixed.
pub fn entry(seed: u64) -> List {
    let dice = &mut Dice::new(seed);
    let mut list = List::new();
    for (i, odd) in ODD.into_iter().enumerate() {
        let side = i as u64 % 2;
        let plain = || Entry { side, ..plain_entry() };
        let quantity = Sizing::FixedQty { qty: odd };
        list.push(entry_case(
            dice,
            &Entry {
                raw_price: odd,
                ..plain()
            },
        ));
        list.push(entry_case(
            dice,
            &Entry {
                sizing: quantity,
                ..plain()
            },
        ));
        list.push(entry_case(
            dice,
            &Entry {
                sizing: quantity,
                partial: true,
                participation: 0.01,
                ..plain()
            },
        ));
        list.push(entry_case(
            dice,
            &Entry {
                partial: true,
                participation: odd,
                ..plain()
            },
        ));
        list.push(entry_case(
            dice,
            &Entry {
                slippage: Slippage::FixedBps { bps: odd },
                ..plain()
            },
        ));
        list.push(entry_case(
            dice,
            &Entry {
                slippage: Slippage::VolumeImpact { coef: odd },
                ..plain()
            },
        ));
        let candle = Candle {
            volume: odd,
            ..plain_candle()
        };
        let impact = Slippage::VolumeImpact { coef: 0.1 };
        list.push(entry_case(
            dice,
            &Entry {
                candle,
                slippage: impact,
                partial: true,
                participation: 0.5,
                ..plain()
            },
        ));
        list.push(entry_case(dice, &Entry { cash: odd, ..plain() }));
    }
    while list.len() < 300 {
        let kind = dice.below(5);
        let odd = dice.percent(8);
        let mut risk = dice.risk();
        if kind == 4 && risk.stop_loss_pct.is_none() {
            risk.stop_loss_pct = Some(2.5);
        }
        let rows = if kind == 3 { dice.between(0, 12) } else { 0 };
        let entry = Entry {
            side: dice.below(2),
            raw_price: dice.rough_price(),
            sizing: dice.sizing(kind, odd),
            risk,
            slippage: dice.slippage(odd),
            taker_bps: dice.taker_bps(),
            partial: dice.percent(40),
            participation: dice.pick(&[0.0, 0.001, 0.05, 0.5, 1.0]),
            candle: dice.candle(),
            cash: dice.span(1.0, 20_000.0),
            closes: walk(dice, rows),
        };
        list.push(entry_case(dice, &entry));
    }
    list
}

/// Words of a portfolio; the quantity decides the side.
fn portfolio(dice: &mut Dice, line: Line, qty: f64) -> Line {
    let cash = if dice.percent(90) {
        dice.span(-20_000.0, 20_000.0)
    } else {
        dice.odd()
    };
    let entry_price = dice.rough_price();
    let time = dice.time();
    let (entry_fee, fees) = (dice.between(0, 80) as f64 / 8.0, dice.between(0, 800) as f64 / 8.0);
    line.floats(&[cash, qty, entry_price])
        .time(time)
        .floats(&[entry_fee, fees])
}

/// Quantities around EPS on both sides, odd prices and volumes, both slippage kinds; then mixed.
pub fn exit(seed: u64) -> List {
    let dice = &mut Dice::new(seed);
    let mut list = List::new();
    for place in 0..360u64 {
        let number = (place / 3) as usize % ODD.len();
        let (raw_price, qty, volume) = match (place < 60, place % 3) {
            (true, 0) => (ODD[number], dice.pick(&[3.0, -3.0]), 500.0),
            (true, 1) => (100.0, ODD[number], 500.0),
            (true, _) => (100.0, dice.pick(&[3.0, -3.0]), ODD[number]),
            (false, _) => (dice.rough_price(), dice.quantity(), dice.volume()),
        };
        let odd = dice.percent(8);
        let line = tag(5)
            .float(raw_price)
            .slippage(dice.slippage(odd))
            .float(dice.taker_bps());
        let line = line.candle(&Candle {
            volume,
            ..dice.candle()
        });
        let bar = dice.below(500) as usize;
        let entered = dice.percent(80).then_some(bar);
        list.push(portfolio(dice, line, qty).entry_bar(entered).text());
    }
    list
}

// ---- intrabar exits

/// A position from 100 whose three levels stand apart: its stop, its trailing stop and its target.
struct Levels {
    is_long: bool,
    extreme: f64,
    stop: f64,
    trailing: f64,
    target: f64,
}

const LONG: Levels = Levels {
    is_long: true,
    extreme: 110.0,
    stop: 75.0,
    trailing: 88.0,
    target: 125.0,
};

const SHORT: Levels = Levels {
    is_long: false,
    extreme: 90.0,
    stop: 125.0,
    trailing: 108.0,
    target: 75.0,
};

/// Stop 25%, trailing 20%, target 25%: those of the three whose bit is set.
fn some_levels(bits: u64) -> Risk {
    let set = |bit: u64, percent: f64| (bits >> bit & 1 == 1).then_some(percent);
    Risk {
        stop_loss_pct: set(0, 25.0),
        trailing_stop_pct: set(1, 20.0),
        take_profit_pct: set(2, 25.0),
        ..Risk::default()
    }
}

fn bar(open: f64, high: f64, low: f64) -> Candle {
    Candle {
        time: 60,
        open,
        high,
        low,
        close: open,
        volume: 10.0,
    }
}

/// Bars that gap through a level, open on it, touch it, stop one float short of it, and bracket everything.
fn bars_at(level: f64) -> Vec<Candle> {
    let (above, below) = (level.next_up(), level.next_down());
    vec![
        bar(level - 2.0, level - 1.0, level - 3.0),
        bar(level + 2.0, level + 3.0, level + 1.0),
        bar(level, level, level),
        bar(100.0, level.max(100.0), level.min(100.0)),
        bar(100.0, above.max(100.0), above.min(100.0)),
        bar(100.0, below.max(100.0), below.min(100.0)),
    ]
}

fn level_bars(levels: &Levels) -> Vec<Candle> {
    let mut bars: Vec<Candle> = [levels.stop, levels.trailing, levels.target]
        .into_iter()
        .flat_map(bars_at)
        .collect();
    bars.push(bar(100.0, 140.0, 60.0));
    bars.push(bar(60.0, 140.0, 60.0));
    bars.push(bar(140.0, 140.0, 60.0));
    bars.push(bar(100.0, 101.0, 99.0));
    bars
}

fn level_case(risk: &Risk, candle: &Candle, entry: f64, extreme: f64, is_long: bool) -> String {
    tag(7)
        .risk(risk)
        .candle(candle)
        .float(entry)
        .float(extreme)
        .flag(is_long)
        .text()
}

/// `intrabar_exit` alone: every level, alone and with the others, from both sides; odd entries and extremes.
fn levels_alone(dice: &mut Dice) -> List {
    let mut list = List::new();
    for levels in [LONG, SHORT] {
        for (i, candle) in level_bars(&levels).iter().enumerate() {
            let alone = 1 << (i / 6).min(2);
            for bits in [alone, 7] {
                list.push(level_case(
                    &some_levels(bits),
                    candle,
                    100.0,
                    levels.extreme,
                    levels.is_long,
                ));
            }
        }
        // Equal levels: stop and trailing stop, and every level at the entry itself.
        let equal = Risk {
            stop_loss_pct: Some(10.0),
            trailing_stop_pct: Some(10.0),
            take_profit_pct: Some(10.0),
            ..Risk::default()
        };
        let none = Risk {
            stop_loss_pct: Some(0.0),
            trailing_stop_pct: Some(0.0),
            take_profit_pct: Some(0.0),
            ..Risk::default()
        };
        for candle in [
            bar(100.0, 110.0, 90.0),
            bar(100.0, 100.0, 100.0),
            bar(85.0, 115.0, 85.0),
            bar(115.0, 115.0, 85.0),
        ] {
            list.push(level_case(&equal, &candle, 100.0, 100.0, levels.is_long));
            list.push(level_case(&none, &candle, 100.0, 100.0, levels.is_long));
        }
        for odd in ODD {
            list.push(level_case(
                &some_levels(7),
                &bar(100.0, 104.0, 97.0),
                odd,
                100.0,
                levels.is_long,
            ));
            list.push(level_case(
                &some_levels(6),
                &bar(100.0, 104.0, 97.0),
                100.0,
                odd,
                levels.is_long,
            ));
        }
    }
    for (open, low) in [(70.0, 68.0), (80.0, 75.0), (80.0, 75.5)] {
        list.push(level_case(&some_levels(1), &bar(open, 101.0, low), 100.0, 101.0, true));
    }
    while list.len() < 260 {
        let (risk, candle) = (dice.risk(), dice.candle());
        let (entry, extreme, is_long) = (dice.rough_price(), dice.rough_price(), dice.percent(50));
        list.push(level_case(&risk, &candle, entry, extreme, is_long));
    }
    list
}

/// What stands in an account when a bar's levels are looked at.
struct Held {
    cash: f64,
    qty: f64,
    entry_price: f64,
    extreme: f64,
}

fn account_case(dice: &mut Dice, risk: &Risk, candle: &Candle, held: &Held) -> String {
    let (time, fees, bar) = (dice.time(), dice.between(8, 800) as f64 / 8.0, dice.below(500) as usize);
    let entered = (held.qty != 0.0).then_some(bar);
    tag(6)
        .risk(risk)
        .float(dice.taker_bps())
        .candle(candle)
        .floats(&[held.cash, held.qty, held.entry_price])
        .time(time)
        .floats(&[1.0, fees])
        .entry_bar(entered)
        .float(held.extreme)
        .text()
}

/// The step's part: the extreme takes this bar first; liquidation where no level fires; nothing when flat.
fn levels_on_accounts(dice: &mut Dice) -> List {
    let mut list = List::new();
    for levels in [LONG, SHORT] {
        let qty = if levels.is_long { 10.0 } else { -10.0 };
        let extreme = levels.extreme;
        for (i, candle) in level_bars(&levels).iter().enumerate() {
            let risk = some_levels(if i % 2 == 0 { 7 } else { 1 << (i / 6).min(2) });
            list.push(account_case(
                dice,
                &risk,
                candle,
                &Held {
                    cash: 9_000.0,
                    qty,
                    entry_price: 100.0,
                    extreme,
                },
            ));
        }
        // Bankruptcy at 50 for the long, at 150 for the short: short of it, on it, past it, gapped through; and no level of it.
        let liquidation = Risk {
            liquidation: true,
            ..Risk::default()
        };
        let with_stop = Risk {
            stop_loss_pct: Some(60.0),
            ..liquidation
        };
        let cash = if levels.is_long { -500.0 } else { 1_500.0 };
        let at: f64 = if levels.is_long { 50.0 } else { 150.0 };
        for candle in bars_at(at) {
            list.push(account_case(
                dice,
                &liquidation,
                &candle,
                &Held {
                    cash,
                    qty,
                    entry_price: 100.0,
                    extreme: 100.0,
                },
            ));
            list.push(account_case(
                dice,
                &with_stop,
                &candle,
                &Held {
                    cash,
                    qty,
                    entry_price: 100.0,
                    extreme: 100.0,
                },
            ));
            list.push(account_case(
                dice,
                &liquidation,
                &candle,
                &Held {
                    cash: -cash,
                    qty,
                    entry_price: 100.0,
                    extreme: 100.0,
                },
            ));
            list.push(account_case(
                dice,
                &Risk::default(),
                &candle,
                &Held {
                    cash,
                    qty,
                    entry_price: 100.0,
                    extreme: 100.0,
                },
            ));
        }
    }
    for odd in ODD {
        let risk = Risk {
            liquidation: true,
            ..some_levels(7)
        };
        let plain = || Held {
            cash: -500.0,
            qty: 10.0,
            entry_price: 100.0,
            extreme: 100.0,
        };
        let wide = bar(90.0, 124.0, 40.0);
        list.push(account_case(dice, &risk, &wide, &Held { qty: odd, ..plain() }));
        list.push(account_case(
            dice,
            &Risk {
                liquidation: true,
                ..Risk::default()
            },
            &wide,
            &Held { cash: odd, ..plain() },
        ));
        list.push(account_case(
            dice,
            &risk,
            &wide,
            &Held {
                entry_price: odd,
                ..plain()
            },
        ));
        list.push(account_case(
            dice,
            &risk,
            &bar(100.0, 101.0, 99.0),
            &Held {
                extreme: odd,
                ..plain()
            },
        ));
    }
    while list.len() < 280 {
        let (risk, candle) = (dice.risk(), dice.candle());
        let held = Held {
            cash: dice.span(-20_000.0, 20_000.0),
            qty: dice.quantity(),
            entry_price: dice.rough_price(),
            extreme: dice.rough_price(),
        };
        list.push(account_case(dice, &risk, &candle, &held));
    }
    list
}

pub fn intrabar(seed: u64) -> List {
    let dice = &mut Dice::new(seed);
    [levels_alone(dice), levels_on_accounts(dice)].concat()
}

// ---- the portfolio

/// Entering, leaving, funding, equity; each odd number in each place, then mixed.
pub fn portfolio_list(seed: u64) -> List {
    let dice = &mut Dice::new(seed);
    let mut list = List::new();
    for number in 0..5 * 110u64 {
        let odd = ODD.get((number / 5) as usize % 40).copied();
        let place = (number / 5) % 3;
        let number_at = |at: u64, usual: f64| if at == place { odd.unwrap_or(usual) } else { usual };
        let (price, amount) = (dice.price(), dice.quantity());
        let (price, amount) = (number_at(0, price), number_at(1, amount));
        let fee = number_at(2, dice.between(0, 80) as f64 / 16.0);
        let held = if number % 10 < 5 { amount } else { dice.quantity() };
        let time = dice.time();
        let line = match number % 5 {
            0 => portfolio(dice, tag(8), 0.0)
                .floats(&[amount, price])
                .time(time)
                .float(fee),
            1 => {
                let reason = dice.between(1, 6);
                portfolio(dice, tag(9), held)
                    .float(price)
                    .time(time)
                    .float(fee)
                    .word(reason)
            }
            2 => portfolio(dice, tag(10), held).float(fee),
            3 => portfolio(dice, tag(11), held).float(price),
            _ => {
                let (on, supplied) = (dice.percent(80), dice.percent(80));
                let rate = number_at(2, dice.span(-0.01, 0.01));
                let line = tag(12).flag(on).flag(supplied).floats(&[price, rate]);
                portfolio(dice, line, held)
            }
        };
        list.push(line.text());
    }
    list
}
