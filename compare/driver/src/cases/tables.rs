//! Tables of every kind.

use oracle::lists::dice::Dice;
use oracle::lists::runs::lively_table;
use oracle::lists::trees::{always, arith, bars_since, close, compare, negated, never, number, prev, price, slot};
use oracle::lists::trees::{Wood, FIELDS};
use oracle::spec::{Condition, Operand};
use oracle::table::Table;

use super::edge;

#[derive(Debug, Clone, Copy)]
pub enum Kind {
    /// Rules that trade often.
    Lively,
    /// Random trees; the shapes that a rule can have.
    Random,
    /// Random trees with many nodes.
    Large,
    /// Rules that count bars since an entry, also while flat.
    Counting,
    /// Many slots.
    Wide,
    /// Trees that nest as far as they may.
    Nested,
    /// Rules that look far back.
    Deep,
}

pub fn some_kind(dice: &mut Dice) -> Kind {
    match dice.below(1_000) {
        0..=399 => Kind::Lively,
        400..=699 => Kind::Random,
        700..=749 => Kind::Counting,
        750..=859 => Kind::Large,
        860..=939 => Kind::Wide,
        940..=989 => Kind::Nested,
        _ => Kind::Deep,
    }
}

pub fn table(dice: &mut Dice, kind: Kind) -> Table {
    match kind {
        Kind::Lively => lively_table(dice),
        Kind::Random => {
            let slots = dice.below(5);
            let back = dice.pick(&[2, 4, 12]);
            let nesting = dice.between(0, 3);
            wood(dice, slots, back, 60).table(dice, nesting)
        }
        Kind::Large => {
            let slots = dice.between(1, 8);
            let nesting = dice.between(3, 4);
            wood(dice, slots, 5, 256).table(dice, nesting)
        }
        Kind::Counting => counting(dice),
        Kind::Wide => {
            let slots = dice.pick(&[9, 31, 32, 33, 63, 64]);
            wood(dice, slots, 4, 120).table(dice, 2)
        }
        Kind::Nested => nested(dice),
        Kind::Deep => deep(dice),
    }
}

fn wood(dice: &mut Dice, slots: u64, back: u64, nodes: usize) -> Wood {
    let mut constants = vec![90.0, 100.0, 110.0, 1.0, 2.0, 0.5, 0.0];
    constants.extend((0..4).map(|_| edge(dice)));
    Wood {
        slots,
        constants,
        fields: 7,
        back,
        nodes,
    }
}

/// Rules on the bars since an entry, alone or with a comparison.
fn counting(dice: &mut Dice) -> Table {
    let mut tree = || {
        let since = bars_since(dice.below(5), dice.below(4) as u32);
        let turned = if dice.percent(50) { negated(since) } else { since };
        let other = dice.pick(&[16, 17]);
        Some(match dice.below(3) {
            0 => turned,
            1 => Condition::All(vec![turned, compare(other, close(), prev(close(), 1))]),
            _ => Condition::Any(vec![turned, compare(other, close(), prev(close(), 2))]),
        })
    };
    let trees = [tree(), tree(), tree(), tree()];
    Table { slots: 0, trees }
}

fn leaf(dice: &mut Dice) -> Operand {
    match dice.below(3) {
        0 => number(dice.pick(&[100.0, 1.0, 99.5])),
        1 => slot(0),
        _ => price(dice.pick(&FIELDS)),
    }
}

/// A chain of operands, `levels` deep.
fn long_operand(dice: &mut Dice, levels: u64) -> Operand {
    (1..levels).fold(leaf(dice), |inner, _| match dice.below(4) {
        0 => prev(inner, dice.below(3) as u32),
        1 => arith(5, leaf(dice), inner),
        2 => arith(6, inner, leaf(dice)),
        _ => arith(dice.between(7, 8), inner, number(dice.pick(&[1.0, 2.0, 0.5]))),
    })
}

/// A chain of conditions, `levels` deep, over a condition of `below` levels.
fn long_condition(dice: &mut Dice, levels: u64, below: u64) -> Condition {
    let (left, right) = (long_operand(dice, below - 1), leaf(dice));
    let last = compare(dice.between(16, 23), left, right);
    (0..levels).fold(last, |inner, _| match dice.below(4) {
        0 | 1 => negated(inner),
        2 => Condition::All(vec![always(), inner]),
        _ => Condition::Any(vec![inner, never()]),
    })
}

/// Nesting of up to 32 levels, in each tree.
fn nested(dice: &mut Dice) -> Table {
    let mut tree = || {
        let levels = dice.between(0, 28);
        let below = dice.between(2, 32 - levels);
        Some(long_condition(dice, levels, below))
    };
    let trees = [tree(), tree(), tree(), tree()];
    Table { slots: 1, trees }
}

/// Reaches up to 4,095.
fn deep(dice: &mut Dice) -> Table {
    let reach = dice.pick(&[60, 200, 200, 1_000, 4_095]);
    let n = dice.between(1, reach / 2) as u32;
    let rest = reach as u32 - n;
    let cross = compare(22, prev(close(), n), prev(close(), rest - 1));
    let since = Condition::Any(vec![bars_since(2, 9), Condition::Falling((prev(slot(0), n), rest))]);
    let up = Condition::Rising((prev(close(), n), rest));
    let sum = arith(5, prev(close(), reach as u32), slot(0));
    let down = compare(17, arith(8, sum, number(2.0)), close());
    Table {
        slots: 1,
        trees: [Some(up), Some(since), Some(down), Some(cross)],
    }
}
