//! Lists for the square root and the metrics.

use super::dice::{Dice, ODD};
use crate::words::Line;

/// Roots: the edges of every range, squares and their neighbours, both parities of the exponent, then any bits.
pub fn root(seed: u64) -> Vec<String> {
    let dice = &mut Dice::new(seed);
    let mut xs: Vec<f64> = ODD.to_vec();
    xs.extend([
        -0.0,
        2.0,
        3.0,
        4.0,
        0.5,
        0.25,
        1e-320,
        f64::MIN_POSITIVE.next_down(),
        f64::MAX.next_down(),
    ]);
    for power in 0..52 {
        xs.push(f64::from_bits(1 << power)); // below the normal numbers
    }
    for _ in 0..60 {
        let whole = (dice.bits() >> 38) as f64;
        let square = whole * whole;
        xs.extend([square, square.next_up(), square.next_down()]);
    }
    for _ in 0..60 {
        // Nearly halfway between two roots: the square of a float and a half.
        let s = (1u64 << 52 | dice.bits() >> 12) as f64;
        xs.extend([s * s, (s * s).next_up(), (s * s).next_down()]);
    }
    for _ in 0..200 {
        xs.push(dice.span(0.0, 1e6));
        xs.push(dice.any().abs());
        xs.push(f64::from_bits(dice.bits() >> 12)); // below the normal numbers
    }
    xs.extend((0..40).map(|_| dice.any()));
    xs.iter().map(|&x| Line::new().float(x).text()).collect()
}

/// The profits of a case, and words around them that are only carried along.
fn metrics_case(dice: &mut Dice, initial: f64, equity: &[f64], profits: &[f64]) -> String {
    let mut line = Line::new()
        .float(initial)
        .word(equity.len() as u64)
        .floats(equity)
        .word(profits.len() as u64);
    for &profit in profits {
        let (from, to, reason) = (dice.time(), dice.time(), dice.between(1, 6));
        let prices = [dice.price(), dice.price(), dice.quantity()];
        line = line
            .time(from)
            .time(to)
            .floats(&prices)
            .float(profit)
            .float(profit / 50.0)
            .word(reason);
    }
    format!("M {}", line.text())
}

fn equity_walk(dice: &mut Dice, points: u64) -> Vec<f64> {
    let mut equity = dice.pick(&[100.0, 10_000.0, 10_000.0, 37.5]);
    let swing = equity * dice.pick(&[0.001, 0.02, 0.2, 1.0]);
    let mut step = || {
        equity += dice.span(-swing, swing);
        equity
    };
    (0..points).map(|_| step()).collect()
}

fn profits(dice: &mut Dice, count: u64) -> Vec<f64> {
    let kind = dice.below(5);
    let profit = |dice: &mut Dice| match kind {
        0 => dice.span(0.0, 100.0),
        1 => dice.span(-100.0, 0.0),
        2 => dice.pick(&[0.0, -0.0, 1.0, -1.0]),
        _ => dice.span(-100.0, 100.0),
    };
    (0..count).map(|_| profit(dice)).collect()
}

/// No points, one, two; flat, rising, falling, through zero, below EPS; no trades, only wins, only losses, neither; odd numbers.
pub fn metrics(seed: u64) -> Vec<String> {
    let dice = &mut Dice::new(seed);
    let mut list = Vec::new();
    let curves: [&[f64]; 20] = [
        &[],
        &[100.0],
        &[0.0],
        &[100.0, 100.0],
        &[100.0, 101.0],
        &[100.0, 99.0],
        &[100.0, 100.0, 100.0, 100.0],
        &[100.0, 101.0, 102.0, 103.0],
        &[103.0, 102.0, 101.0, 100.0],
        &[100.0, 200.0, 400.0, 800.0],
        &[100.0, 0.0, 50.0],
        &[100.0, 50.0, -50.0, -25.0, 10.0],
        &[-100.0, -50.0, -200.0],
        &[0.0, 0.0, 0.0],
        &[f64::EPSILON, 1.0, f64::EPSILON / 2.0, 1.0],
        &[100.0, 120.0, 90.0, 130.0, 65.0, 131.0],
        &[100.0, 120.0, 60.0, 110.0, 55.0],
        &[1e300, -1e300, 1e300],
        &[5e-324, 1e-323, 5e-324],
        &[100.0, 100f64.next_up(), 100.0],
    ];
    let results: [&[f64]; 8] = [
        &[],
        &[5.0],
        &[-5.0],
        &[0.0],
        &[-0.0, 0.0],
        &[5.0, 2.5, 0.1],
        &[-5.0, -2.5, -0.1],
        &[5.0, -2.5, 0.0, 1e-17, -1e-17],
    ];
    for (i, curve) in curves.iter().enumerate() {
        for initial in [100.0, 0.0] {
            list.push(metrics_case(dice, initial, curve, results[i % results.len()]));
        }
    }
    for result in results {
        list.push(metrics_case(dice, 100.0, &[100.0, 104.0, 103.0], result));
        list.push(metrics_case(dice, 100.0, &[], result));
    }
    for odd in ODD.into_iter().chain([-0.0]) {
        list.push(metrics_case(dice, odd, &[100.0, 104.0, 103.0], &[odd, 1.0]));
        list.push(metrics_case(dice, 100.0, &[100.0, odd, 103.0], &[odd]));
        list.push(metrics_case(dice, 100.0, &[100.0, 104.0, odd], &[1.0, odd, -1.0]));
    }
    let (points, trades) = (equity_walk(dice, 480), profits(dice, 60));
    list.push(metrics_case(dice, 10_000.0, &points, &trades));
    while list.len() < 300 {
        let (points, trades) = (dice.between(0, 24), dice.between(0, 6));
        let (points, trades) = (equity_walk(dice, points), profits(dice, trades));
        let initial = dice.pick(&[100.0, 10_000.0, 37.5, 0.0, f64::EPSILON, -100.0]);
        list.push(metrics_case(dice, initial, &points, &trades));
    }
    list
}
