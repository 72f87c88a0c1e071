//! The limits that a table sets, counted on the original's types.

use std::collections::BTreeSet;

use crate::rules::condition_lookback;
use crate::spec::{Condition, FillTiming, Operand, OperandExpr, Slippage, StrategySpec};

/// The trees as the engine of the text asks them: a short exit that is left out beside a short entry is the exit.
pub fn trees(spec: &StrategySpec) -> [Option<&Condition>; 4] {
    let short_exit = match (&spec.short_entry, &spec.short_exit) {
        (Some(_), None) => Some(&spec.exit),
        (_, exit) => exit.as_ref(),
    };
    [
        Some(&spec.entry),
        Some(&spec.exit),
        spec.short_entry.as_ref(),
        short_exit,
    ]
}

/// What has no counterpart in a box.
pub fn lacking(spec: &StrategySpec) -> bool {
    matches!(spec.costs.slippage, Slippage::Spread) || spec.execution.fill_timing != FillTiming::NextOpen
}

#[derive(Debug, Default)]
pub struct Size {
    pub nodes: usize,
    pub nesting: usize,
    pub reach: usize,
    pub names: BTreeSet<String>,
}

impl Size {
    pub fn of(spec: &StrategySpec) -> Size {
        let mut size = Size::default();
        for tree in trees(spec).into_iter().flatten() {
            size.condition(tree, 1);
            size.reach = size.reach.max(condition_lookback(tree));
        }
        size
    }

    /// The number of the refusal that a table of this size gets, 0 where it is accepted.
    pub fn refusal(&self) -> u32 {
        if self.nodes > 256 || self.names.len() > 64 {
            4
        } else if self.nesting > 32 {
            8
        } else if self.reach > 4095 {
            9
        } else {
            0
        }
    }

    fn node(&mut self, level: usize) {
        self.nodes += 1;
        self.nesting = self.nesting.max(level);
    }

    fn condition(&mut self, condition: &Condition, level: usize) {
        self.node(level);
        match condition {
            Condition::Gt((a, b))
            | Condition::Lt((a, b))
            | Condition::Ge((a, b))
            | Condition::Le((a, b))
            | Condition::Eq((a, b))
            | Condition::Ne((a, b))
            | Condition::CrossAbove((a, b))
            | Condition::CrossBelow((a, b)) => [a, b].into_iter().for_each(|o| self.operand(o, level + 1)),
            Condition::Between((a, b, c)) => [a, b, c].into_iter().for_each(|o| self.operand(o, level + 1)),
            Condition::Rising((a, _)) | Condition::Falling((a, _)) => self.operand(a, level + 1),
            Condition::All(list) | Condition::Any(list) => list.iter().for_each(|c| self.condition(c, level + 1)),
            Condition::Not(c) => self.condition(c, level + 1),
            Condition::InPosition(_) | Condition::BarsSinceEntry(_) => {}
        }
    }

    fn operand(&mut self, operand: &Operand, level: usize) {
        self.node(level);
        match operand {
            Operand::Const(_) => {}
            Operand::Ref(name) => {
                self.names.insert(name.clone());
            }
            Operand::Expr(expr) => match expr.as_ref() {
                OperandExpr::Price(_) => {}
                OperandExpr::Prev((a, _)) => self.operand(a, level + 1),
                OperandExpr::Add((a, b))
                | OperandExpr::Sub((a, b))
                | OperandExpr::Mul((a, b))
                | OperandExpr::Div((a, b)) => {
                    self.operand(a, level + 1);
                    self.operand(b, level + 1);
                }
            },
        }
    }
}
