//! Conditions and operands: short ways to write them, and random ones.

use super::dice::Dice;
use crate::registry::slot_name;
use crate::spec::{Condition, IntPredicate, Operand, OperandExpr, PriceField};
use crate::table::{nodes_of, Table};

pub fn number(x: f64) -> Operand {
    Operand::Const(x)
}

pub fn slot(k: usize) -> Operand {
    Operand::Ref(slot_name(k))
}

fn expr(expr: OperandExpr) -> Operand {
    Operand::Expr(Box::new(expr))
}

pub fn price(field: PriceField) -> Operand {
    expr(OperandExpr::Price(field))
}

pub fn close() -> Operand {
    price(PriceField::Close)
}

pub fn prev(operand: Operand, n: u32) -> Operand {
    expr(OperandExpr::Prev((Box::new(operand), n)))
}

/// Kinds 5 to 8.
pub fn arith(kind: u64, a: Operand, b: Operand) -> Operand {
    let two = (Box::new(a), Box::new(b));
    expr(match kind {
        5 => OperandExpr::Add(two),
        6 => OperandExpr::Sub(two),
        7 => OperandExpr::Mul(two),
        _ => OperandExpr::Div(two),
    })
}

/// Kinds 16 to 23.
pub fn compare(kind: u64, a: Operand, b: Operand) -> Condition {
    match kind {
        16 => Condition::Gt((a, b)),
        17 => Condition::Lt((a, b)),
        18 => Condition::Ge((a, b)),
        19 => Condition::Le((a, b)),
        20 => Condition::Eq((a, b)),
        21 => Condition::Ne((a, b)),
        22 => Condition::CrossAbove((a, b)),
        _ => Condition::CrossBelow((a, b)),
    }
}

pub fn negated(condition: Condition) -> Condition {
    Condition::Not(Box::new(condition))
}

pub fn always() -> Condition {
    Condition::All(Vec::new())
}

pub fn never() -> Condition {
    Condition::Any(Vec::new())
}

/// Selectors 0 to 4.
pub fn bars_since(selector: u64, k: u32) -> Condition {
    Condition::BarsSinceEntry(match selector {
        0 => IntPredicate::Gt(k),
        1 => IntPredicate::Lt(k),
        2 => IntPredicate::Ge(k),
        3 => IntPredicate::Le(k),
        _ => IntPredicate::Eq(k),
    })
}

pub const FIELDS: [PriceField; 7] = [
    PriceField::Open,
    PriceField::High,
    PriceField::Low,
    PriceField::Close,
    PriceField::Volume,
    PriceField::Hlc3,
    PriceField::Ohlc4,
];

/// What random trees are made of.
pub struct Wood {
    pub slots: u64,
    /// Constants are drawn from here.
    pub constants: Vec<f64>,
    /// Price fields to choose from, by their first ones.
    pub fields: u64,
    /// Every look-back n is below this.
    pub back: u64,
    /// A table has at most so many nodes.
    pub nodes: usize,
}

impl Wood {
    fn leaf(&self, dice: &mut Dice) -> Operand {
        match dice.below(if self.slots > 0 { 8 } else { 6 }) {
            0 | 1 => number(dice.pick(&self.constants)),
            2..=5 => price(FIELDS[dice.below(self.fields) as usize]),
            _ => slot(dice.below(self.slots) as usize),
        }
    }

    pub fn operand(&self, dice: &mut Dice, nesting: u64) -> Operand {
        if nesting == 0 || dice.percent(60) {
            return self.leaf(dice);
        }
        match dice.below(3) {
            0 => {
                let n = dice.below(self.back) as u32;
                prev(self.operand(dice, nesting - 1), n)
            }
            _ => {
                let kind = dice.between(5, 8);
                arith(kind, self.operand(dice, nesting - 1), self.operand(dice, nesting - 1))
            }
        }
    }

    pub fn condition(&self, dice: &mut Dice, nesting: u64) -> Condition {
        let operands = nesting.min(3);
        let choice = if nesting == 0 { dice.below(14) } else { dice.below(22) };
        match choice {
            0..=8 => {
                let kind = dice.between(16, 23);
                compare(kind, self.operand(dice, operands), self.operand(dice, operands))
            }
            9 => {
                let three = (
                    self.operand(dice, operands),
                    self.operand(dice, operands),
                    self.operand(dice, operands),
                );
                Condition::Between(three)
            }
            10 | 11 => {
                let n = dice.below(self.back) as u32;
                let operand = self.operand(dice, operands);
                if choice == 10 {
                    Condition::Rising((operand, n))
                } else {
                    Condition::Falling((operand, n))
                }
            }
            12 => Condition::InPosition(dice.percent(50)),
            13 => {
                let (selector, k) = (dice.below(5), dice.below(5) as u32);
                bars_since(selector, k)
            }
            14 | 15 => negated(self.condition(dice, nesting - 1)),
            _ => {
                let count = dice.below(4);
                let children = (0..count).map(|_| self.condition(dice, nesting - 1)).collect();
                if choice < 19 {
                    Condition::All(children)
                } else {
                    Condition::Any(children)
                }
            }
        }
    }

    /// A table of which the two short trees may be absent.
    pub fn table(&self, dice: &mut Dice, nesting: u64) -> Table {
        let tree = |dice: &mut Dice| Some(self.condition(dice, nesting));
        let table = Table {
            slots: self.slots as usize,
            trees: [
                tree(dice),
                tree(dice),
                tree(dice).filter(|_| dice.percent(70)),
                tree(dice).filter(|_| dice.percent(70)),
            ],
        };
        let nodes: usize = table.trees.iter().flatten().map(|tree| nodes_of(tree).len() / 16).sum();
        if nodes <= self.nodes {
            table
        } else {
            self.table(dice, nesting)
        }
    }
}
