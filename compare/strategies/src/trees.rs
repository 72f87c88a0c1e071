//! Random conditions and operands, in every form that the format has.

use dice::Dice;
use serde_json::{json, Value};

/// Names that rules read; the base of each, up to the dot, may be declared.
pub const NAMES: [&str; 12] = [
    "ema",
    "rsi",
    "macd.signal",
    "macd.hist",
    "a",
    "b.c.d",
    "atr",
    "é",
    "bb.upper",
    "bb.lower",
    "x y",
    "",
];

/// How a strategy is made: how large its rules grow, and how often something in it is odd.
pub struct Manner {
    nodes: usize,
    deep: bool,
    pub many_slots: bool,
    odd: usize,
}

impl Manner {
    pub fn new(dice: &mut Dice) -> Manner {
        let nodes = dice.pick(&[3, 6, 12, 30, 90, 200]);
        let (deep, many_slots, odd) = (dice.percent(4), dice.percent(3), dice.pick(&[0, 0, 0, 2, 10]));
        Manner {
            nodes: if deep || many_slots { 200 } else { nodes },
            deep,
            many_slots,
            odd,
        }
    }
}

/// A condition with a part of the nodes that a strategy may have.
pub fn tree(dice: &mut Dice, manner: &Manner, part: usize) -> Value {
    let mut left = manner.nodes / part;
    condition(dice, manner, &mut left, 0)
}

fn slot_name(dice: &mut Dice, manner: &Manner) -> String {
    match manner.many_slots {
        true => format!("ema.f{}", dice.below(90)),
        false => dice.pick(&NAMES).to_owned(),
    }
}

fn condition(dice: &mut Dice, manner: &Manner, left: &mut usize, level: usize) -> Value {
    *left = left.saturating_sub(1);
    let most = if manner.deep { 40 } else { 12 };
    let inner = *left > 3 && level < most;
    let branches = if manner.deep { 90 } else { 45 };
    if inner && dice.percent(branches) {
        let name = dice.pick(&["all", "any", "not"]);
        if name == "not" {
            return json!({ name: condition(dice, manner, left, level + 1) });
        }
        let many = if manner.deep { 1 + dice.below(2) } else { dice.below(5) };
        let list: Vec<Value> = (0..many).map(|_| condition(dice, manner, left, level + 1)).collect();
        return json!({ name: list });
    }
    test(dice, manner, left, level)
}

fn test(dice: &mut Dice, manner: &Manner, left: &mut usize, level: usize) -> Value {
    let mut operand = || operand(dice, manner, left, level + 1);
    let (a, b, c) = (operand(), operand(), operand());
    match dice.below(20) {
        0..=7 => {
            let name = dice.pick(&["gt", "lt", "ge", "le", "eq", "ne"]);
            json!({ name: [a, b] })
        }
        8..=11 => {
            let name = dice.pick(&["cross_above", "cross_below"]);
            json!({ name: [a, b] })
        }
        12 | 13 => json!({"between": [a, b, c]}),
        14..=16 => {
            let name = dice.pick(&["rising", "falling"]);
            json!({ name: [a, bars(dice, manner)] })
        }
        17 => json!({"in_position": dice.percent(50)}),
        _ => {
            let name = dice.pick(&["gt", "lt", "ge", "le", "eq"]);
            json!({"bars_since_entry": { name: dice.below(8) }})
        }
    }
}

fn operand(dice: &mut Dice, manner: &Manner, left: &mut usize, level: usize) -> Value {
    *left = left.saturating_sub(1);
    let most = if manner.deep { 44 } else { 14 };
    if *left > 2 && level < most && dice.percent(if manner.deep { 70 } else { 30 }) {
        if dice.percent(45) {
            let inner = operand(dice, manner, left, level + 1);
            return json!({"prev": [inner, bars(dice, manner)]});
        }
        let name = dice.pick(&["add", "sub", "mul", "div"]);
        let (a, b) = (
            operand(dice, manner, left, level + 1),
            operand(dice, manner, left, level + 1),
        );
        return json!({ name: [a, b] });
    }
    match dice.below(10) {
        0..=2 => constant(dice),
        3..=5 => json!(slot_name(dice, manner)),
        _ => {
            let price = dice.pick(&["open", "high", "low", "close", "volume", "hlc3", "ohlc4"]);
            match dice.percent(manner.odd) {
                true => json!({"price": { price: null }}),
                false => json!({ "price": price }),
            }
        }
    }
}

fn bars(dice: &mut Dice, manner: &Manner) -> Value {
    match dice.below(400) {
        0 => json!(4095),
        1 => json!(2000 + dice.below(4000)),
        2 if manner.odd > 0 => json!(dice.pick(&[u64::from(u32::MAX), 1 << 32, u64::MAX])),
        3 if manner.odd > 0 => json!(dice.pick(&[-1.0, 2.5, 1e3])),
        _ => json!(dice.below(7)),
    }
}

pub fn constant(dice: &mut Dice) -> Value {
    match dice.below(12) {
        0..=5 => json!(dice.below(200) as i64 - 100),
        6..=8 => json!((dice.below(4000) as f64 - 2000.0) / 16.0),
        9 => json!(dice.pick(&[0.1, -0.0, 5e-324, 1e308, f64::MIN_POSITIVE, f64::EPSILON, 1e-300])),
        10 => json!(dice.pick(&[u64::MAX, 1 << 53, (1 << 53) + 1])),
        _ => {
            let x = f64::from_bits(dice.bits());
            json!(if x.is_finite() { x } else { 1.0 })
        }
    }
}
