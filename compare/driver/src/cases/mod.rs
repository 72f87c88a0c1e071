//! Random cases. A seed and a number give the same case everywhere.

mod bars;
mod settings;
mod tables;

use oracle::lists::dice::Dice;
use oracle::lists::orders::around_levels;
use oracle::lists::runs::{settings_for, Bar};
use oracle::spec::OrderType;

use crate::case::Case;
use crate::compare::Plan;

/// Numbers that a float in a bar or setting may be and that sit at an edge; all are finite.
pub const EDGES: [f64; 18] = [
    0.0,
    1.0,
    -1.0,
    -50.5,
    100.0,
    -100.0,
    f64::EPSILON,
    -f64::EPSILON,
    5e-324,
    f64::MIN_POSITIVE,
    1e-300,
    1e300,
    -1e300,
    f64::MAX,
    -f64::MAX,
    9_007_199_254_740_992.0,
    0.1,
    1e-16,
];

/// A finite number at an edge, or of any bits.
pub fn edge(dice: &mut Dice) -> f64 {
    if dice.percent(80) {
        return dice.pick(&EDGES);
    }
    let any = f64::from_bits(dice.bits());
    if any.is_finite() {
        any
    } else {
        0.5
    }
}

/// The dice of case `number` under a seed.
pub fn dice_of(seed: u64, number: u64) -> Dice {
    Dice::new(Dice::new(seed).bits() ^ Dice::new(!number).bits())
}

pub fn some_case(seed: u64, number: u64) -> (Case, Plan) {
    let dice = &mut dice_of(seed, number);
    let kind = tables::some_kind(dice);
    let table = tables::table(dice, kind);
    let zeros = dice.percent(2);
    let settings = if zeros {
        settings::to_zero(dice)
    } else {
        settings::some(dice)
    };
    let settings = settings::ordered(dice, settings, zeros);
    let settings = settings_for(settings::in_lots(dice, settings), &table);
    let count = bars::some_count(dice, settings.depth);
    let mut bars = bars::some(dice, count, table.slots, settings.funding);
    if zeros {
        bars::zeros(dice, &mut bars);
    }
    if settings.order_type != OrderType::Market && dice.percent(60) {
        around_levels(dice, &settings, &mut bars);
    }
    let mut case = Case { settings, table, bars };
    if dice.percent(20) {
        case.settings.depth = (case.settings.depth + dice.below(20) as usize).min(4_096);
    }
    let spare = dice.pick(&[1, 2, case.settings.depth, count + 1]);
    let ask_every = if count > 600 { 37 } else { dice.pick(&[1, 1, 3]) };
    (case, Plan { spare, ask_every })
}

/// An account of a stream, with no bars: most have no short trees and a leverage of at most 1, as their profile asks.
pub fn some_account(dice: &mut Dice) -> Case {
    let kind = tables::some_kind(dice);
    let mut table = tables::table(dice, kind);
    if dice.percent(97) {
        table.trees[2..].fill(None);
    }
    let mut settings = settings::some(dice);
    if dice.percent(97) {
        settings.risk.max_leverage = dice.pick(&[None, None, Some(1.0), Some(0.5), Some(-0.0), Some(-2.0)]);
    }
    let settings = settings::ordered(dice, settings, false);
    let settings = settings_for(settings::in_lots(dice, settings), &table);
    Case {
        settings,
        table,
        bars: Vec::new(),
    }
}

/// Bars of a stream.
pub fn some_bars(dice: &mut Dice, count: usize, slots: usize, funding: bool) -> Vec<Bar> {
    bars::some(dice, count, slots, funding)
}
