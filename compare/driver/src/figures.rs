//! `driver root SEED COUNT` and `driver metrics SEED COUNT`: the square root against the hardware's, the metrics against
//! `metrics.rs`.

use oracle::lists::dice::{Dice, ODD};
use oracle::portfolio::Trade;
use oracle::words::{reason_name, Line, NAN};
use oracle::{metrics_of, Reading};
use yshturpa::layout::METRIC_WORDS;
use yshturpa::{calls, Refusal};

use crate::progress::Progress;
use crate::records;
use crate::view::{unlike, METRICS};

/// A number whose root is a float, of any exponent, below the normal numbers too: the square of up to 26 digits, times a power of four.
fn some_square(dice: &mut Dice) -> f64 {
    let whole = (dice.bits() >> dice.between(38, 62)) as f64;
    // Two factors, since one alone may be past the floats.
    let power = dice.below(1_050) as i32 - 537;
    let half = power / 2;
    whole * whole * 4f64.powi(half) * 4f64.powi(power - half)
}

/// A word to take the root of: any bits, below the normal numbers, squares and their neighbours, near halfway between two roots.
fn some_word(dice: &mut Dice) -> u64 {
    let near = |dice: &mut Dice, square: f64| {
        let word = square.to_bits() as i64 + dice.below(5) as i64 - 2;
        word.max(0) as u64
    };
    match dice.below(8) {
        0 | 1 => dice.bits(),
        2 => dice.bits() >> dice.between(12, 63),
        3 => {
            let square = some_square(dice);
            near(dice, square)
        }
        4 | 5 => {
            let s = (1u64 << 52 | dice.bits() >> 12) as f64;
            let power = 2f64.powi(dice.below(900) as i32 - 450);
            near(dice, s * power * (s * power))
        }
        6 => dice.pick(&ODD).to_bits(),
        _ => dice.span(0.0, 1e6).to_bits(),
    }
}

/// The root's word as it must be: correctly rounded, a NaN in its one pattern.
pub fn root_word(word: u64) -> u64 {
    let root = f64::from_bits(word).sqrt();
    if root.is_nan() {
        NAN
    } else {
        root.to_bits()
    }
}

pub fn roots(seed: u64, count: u64) -> bool {
    let dice = &mut Dice::new(seed);
    let mut progress = Progress::new("root", count);
    for number in 0..count {
        let word = some_word(dice);
        let (ours, theirs) = (calls::root(word), root_word(word));
        if ours != theirs {
            println!("the root of {word:016x}: ours {ours:016x}, the hardware's {theirs:016x}");
            println!("root: seed {seed}, {number} compared, 1 differs");
            return false;
        }
        if number % 65_536 == 0 {
            progress.at(number, String::new);
        }
    }
    println!("root: seed {seed}, {count} compared, 0 differ");
    true
}

/// An equity curve and trades; any float may stand in either.
struct Figures {
    initial: f64,
    equity: Vec<f64>,
    trades: Vec<Trade>,
}

fn some_float(dice: &mut Dice, scale: f64) -> f64 {
    match dice.below(40) {
        0 => dice.odd(),
        1 => 0.0,
        _ => dice.span(-scale, scale),
    }
}

fn some_trade(dice: &mut Dice, losing: u64) -> Trade {
    let profit = some_float(dice, 100.0);
    Trade {
        entry_time: dice.time(),
        exit_time: dice.time(),
        entry_price: dice.price(),
        exit_price: dice.price(),
        qty: dice.quantity(),
        pnl: if dice.percent(losing) {
            -profit.abs()
        } else {
            profit.abs()
        },
        return_pct: profit / 50.0,
        reason: reason_name(dice.between(1, 6)).into(),
    }
}

fn some_figures(dice: &mut Dice) -> Figures {
    let initial = dice.pick(&[100.0, 10_000.0, 37.5, 0.0, f64::EPSILON, -100.0, 1e300]);
    let initial = if dice.percent(5) { dice.odd() } else { initial };
    let points = match dice.below(10) {
        0..=2 => dice.below(4),
        3..=8 => dice.below(60),
        _ => dice.below(600),
    };
    let scale = dice.pick(&[0.0, 1e-17, 0.01, 1.0, 50.0, 1e305]);
    let odd = dice.percent(20);
    let mut at = initial;
    let mut next = || {
        let step = if odd {
            some_float(dice, scale)
        } else {
            dice.span(-scale, scale)
        };
        at += step;
        at
    };
    let equity = (0..points).map(|_| next()).collect();
    let losing = dice.pick(&[0, 50, 50, 100]);
    let trades = (0..dice.below(8)).map(|_| some_trade(dice, losing)).collect();
    Figures {
        initial,
        equity,
        trades,
    }
}

fn points_of(equity: &[f64]) -> Vec<u64> {
    let point = |(i, x): (usize, &f64)| [i as u64, x.to_bits()];
    equity.iter().enumerate().flat_map(point).collect()
}

pub fn metrics(seed: u64, count: u64) -> bool {
    let dice = &mut Dice::new(seed);
    let mut progress = Progress::new("metrics", count);
    for number in 0..count {
        let figures = some_figures(dice);
        let trades = figures.trades.iter().fold(Line::new(), records::ten_words);
        let mut ours = [0; METRIC_WORDS];
        let points = points_of(&figures.equity);
        let called = calls::metrics(figures.initial.to_bits(), &points, trades.words(), &mut ours);
        let theirs = metrics_of(figures.initial, &figures.equity, &figures.trades, Reading::Paper);
        let parted = unlike(&METRICS, &ours, Line::new().metrics(&theirs).words());
        if Refusal::of(called).is_err() || !parted.is_empty() {
            println!(
                "answer {called:x}, {parted:x?}, capital {:016x}",
                figures.initial.to_bits()
            );
            println!("equity {points:x?}\ntrades {}", trades.text());
            println!("metrics: seed {seed}, {number} compared, 1 differs");
            return false;
        }
        if number % 1_024 == 0 {
            progress.at(number, String::new);
        }
    }
    println!("metrics: seed {seed}, {count} compared, 0 differ");
    true
}
