//! Bars: walks, gaps, level ground, prices that meet, nothing traded, great and small numbers, missing slots, funding.

use oracle::data::Candle;
use oracle::lists::dice::Dice;
use oracle::lists::runs::{walk, Bar};

use super::edge;

/// How many bars: enough that a window of `depth` rows fills and moves.
pub fn some_count(dice: &mut Dice, depth: usize) -> usize {
    match dice.below(100) {
        0 => 0,
        1 => 1,
        _ if depth > 40 => depth + dice.below(120) as usize,
        _ => dice.between(8, 160) as usize,
    }
}

pub fn some(dice: &mut Dice, count: usize, slots: usize, funding: bool) -> Vec<Bar> {
    let supplied = if funding {
        dice.pick(&[100, 100, 100, 60, 0])
    } else {
        20
    };
    let swing = dice.pick(&[1, 4, 12, 30]);
    let mut bars = walk(dice, count as u64, slots, swing, supplied);
    let change: Change = match dice.below(20) {
        0 | 1 => gaps,
        2 => level,
        3 => few_prices,
        4 => nothing_traded,
        5 => scaled,
        6 => around_zero,
        7 => zeros,
        8 => any_numbers,
        9 => unordered,
        10 | 11 => slots_that_meet,
        12 => seldom_there,
        13 => odd_funding,
        _ => |_, _| (),
    };
    change(dice, &mut bars);
    if dice.percent(10) {
        any_times(dice, &mut bars);
    }
    bars
}

type Change = fn(&mut Dice, &mut [Bar]);

/// The same change to every price of a bar.
fn prices(candle: &mut Candle, mut change: impl FnMut(f64) -> f64) {
    for price in [&mut candle.open, &mut candle.high, &mut candle.low, &mut candle.close] {
        *price = change(*price);
    }
}

/// Some bars open far from the last close.
fn gaps(dice: &mut Dice, bars: &mut [Bar]) {
    let mut factor = 1.0;
    for bar in bars {
        if dice.percent(15) {
            factor = dice.pick(&[0.5, 0.75, 0.9, 1.0, 1.1, 1.5, 3.0]);
        }
        prices(&mut bar.candle, |x| x * factor);
    }
}

fn level(dice: &mut Dice, bars: &mut [Bar]) {
    let mut at = 100.0;
    for bar in bars {
        if dice.percent(10) {
            at = dice.pick(&[100.0, 100.0, 50.0, 101.0, 0.25]);
        }
        prices(&mut bar.candle, |_| at);
    }
}

/// Four prices only, so that levels are met exactly.
fn few_prices(dice: &mut Dice, bars: &mut [Bar]) {
    for bar in bars {
        let mut pick = || dice.pick(&[95.0, 97.5, 100.0, 102.5]);
        let (open, close) = (pick(), pick());
        bar.candle.open = open;
        bar.candle.close = close;
        bar.candle.high = open.max(close);
        bar.candle.low = open.min(close);
    }
}

fn nothing_traded(dice: &mut Dice, bars: &mut [Bar]) {
    for bar in bars {
        bar.candle.volume = dice.pick(&[0.0, 0.0, 0.0, 1.0, -3.0, 5e-324]);
    }
}

/// Very great or very small numbers.
fn scaled(dice: &mut Dice, bars: &mut [Bar]) {
    let factor = dice.pick(&[1e305, 1e150, 1e17, 1e-20, 1e-160, 1e-310]);
    let scale = |x: f64| (x * factor).clamp(-f64::MAX, f64::MAX);
    for bar in bars {
        prices(&mut bar.candle, scale);
        bar.slots.iter_mut().flatten().for_each(|x| *x = scale(*x));
    }
}

/// Prices through zero and below it.
fn around_zero(dice: &mut Dice, bars: &mut [Bar]) {
    let by = dice.pick(&[100.0, 95.0, 250.0]);
    for bar in bars {
        prices(&mut bar.candle, |x| x - by);
    }
}

/// Zeros of both signs among the prices.
pub fn zeros(dice: &mut Dice, bars: &mut [Bar]) {
    for bar in bars {
        prices(&mut bar.candle, |x| dice.pick(&[x, x, 0.0, -0.0, 1.0, -1.0, 5.0]));
    }
}

fn any_numbers(dice: &mut Dice, bars: &mut [Bar]) {
    let share = dice.pick(&[3, 20, 100]);
    for bar in bars {
        let mut change = |x: f64| if dice.percent(share) { edge(dice) } else { x };
        prices(&mut bar.candle, &mut change);
        bar.candle.volume = change(bar.candle.volume);
        bar.slots.iter_mut().flatten().for_each(|x| *x = change(*x));
    }
}

/// Prices in no order: a high below a low, an open outside both.
fn unordered(dice: &mut Dice, bars: &mut [Bar]) {
    for bar in bars {
        prices(&mut bar.candle, |_| dice.price());
    }
}

/// Slots on few values, so that they meet and cross.
fn slots_that_meet(dice: &mut Dice, bars: &mut [Bar]) {
    let near = 100.0 + f64::EPSILON * 64.0;
    for bar in bars {
        let mut pick = |_| dice.percent(93).then(|| dice.pick(&[99.0, 100.0, 100.0, near, 101.0]));
        bar.slots.iter_mut().for_each(|slot| *slot = pick(()));
    }
}

fn seldom_there(dice: &mut Dice, bars: &mut [Bar]) {
    let share = dice.pick(&[0, 20, 50]);
    for bar in bars {
        bar.slots
            .iter_mut()
            .for_each(|slot| *slot = slot.filter(|_| dice.percent(share)));
    }
}

fn odd_funding(dice: &mut Dice, bars: &mut [Bar]) {
    for bar in bars {
        let (mark, rate) = (edge(dice), edge(dice));
        bar.funding = bar.funding.map(|_| (mark, rate));
    }
}

/// Times are copied and never compared.
fn any_times(dice: &mut Dice, bars: &mut [Bar]) {
    for bar in bars {
        bar.candle.time = dice.bits() as i64;
    }
}
