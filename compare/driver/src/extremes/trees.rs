//! Trees with Highest and Lowest, which the text has not, and the tables they make.

use oracle::lists::dice::Dice;

#[derive(Debug, Clone)]
pub enum Operand {
    Number(f64),
    Slot(u8),
    Price(u8),
    Prev(Box<Operand>, u32),
    Arith(u8, Box<Operand>, Box<Operand>),
    /// Kind 9 or 10, over a price or a slot, and n.
    Extreme(u8, Box<Operand>, u32),
}

#[derive(Debug, Clone)]
pub enum Condition {
    /// Kinds 16 to 23.
    Compare(u8, Operand, Operand),
    Between(Operand, Operand, Operand),
    /// Kind 25 or 26, and n.
    Trend(u8, Operand, u32),
    All(Vec<Condition>),
    Any(Vec<Condition>),
    Not(Box<Condition>),
}

/// A node's 16 bytes: kind, selector, children, n, constant.
fn node(kind: u8, selector: u8, children: u16, n: u32, constant: u64) -> Vec<u8> {
    let mut bytes = vec![kind, selector];
    bytes.extend(children.to_le_bytes());
    bytes.extend(n.to_le_bytes());
    bytes.extend(constant.to_le_bytes());
    bytes
}

fn over(own: Vec<u8>, below: &[&Operand]) -> Vec<u8> {
    below
        .iter()
        .fold(own, |bytes, operand| [bytes, operand.nodes()].concat())
}

impl Operand {
    fn nodes(&self) -> Vec<u8> {
        match self {
            Self::Number(x) => node(1, 0, 0, 0, x.to_bits()),
            Self::Slot(k) => node(2, 0, 0, (*k).into(), 0),
            Self::Price(selector) => node(3, *selector, 0, 0, 0),
            Self::Prev(a, n) => over(node(4, 0, 0, *n, 0), &[a]),
            Self::Arith(kind, a, b) => over(node(*kind, 0, 0, 0, 0), &[a, b]),
            Self::Extreme(kind, a, n) => over(node(*kind, 0, 0, *n, 0), &[a]),
        }
    }
}

impl Condition {
    pub fn nodes(&self) -> Vec<u8> {
        let group = |kind, below: &[Condition]| {
            let own = node(kind, 0, below.len() as u16, 0, 0);
            below.iter().fold(own, |bytes, c| [bytes, c.nodes()].concat())
        };
        match self {
            Self::Compare(kind, a, b) => over(node(*kind, 0, 0, 0, 0), &[a, b]),
            Self::Between(x, low, high) => over(node(24, 0, 0, 0, 0), &[x, low, high]),
            Self::Trend(kind, a, n) => over(node(*kind, 0, 0, *n, 0), &[a]),
            Self::All(below) => group(27, below),
            Self::Any(below) => group(28, below),
            Self::Not(below) => [node(29, 0, 0, 0, 0), below.nodes()].concat(),
        }
    }
}

/// The table of an entry and an exit.
pub fn table(version: u16, slots: u8, trees: [&Condition; 2]) -> Vec<u8> {
    let trees = trees.map(Condition::nodes);
    let counts = [0, 1].map(|tree: usize| (trees[tree].len() / 16) as u16);
    let mut bytes = b"RTB".to_vec();
    bytes.push(slots);
    bytes.extend(version.to_le_bytes());
    bytes.extend((counts[0] + counts[1]).to_le_bytes());
    [counts[0], counts[1], 0, 0]
        .iter()
        .for_each(|count| bytes.extend(count.to_le_bytes()));
    bytes.extend(trees.concat());
    bytes
}

/// Random trees, over so many slots.
pub struct Grove {
    pub slots: u8,
    pub back: u64,
}

impl Grove {
    /// A price or a slot.
    pub fn series(&self, dice: &mut Dice) -> Operand {
        if self.slots > 0 && dice.percent(40) {
            Operand::Slot(dice.below(u64::from(self.slots)) as u8)
        } else {
            Operand::Price(dice.below(7) as u8)
        }
    }

    pub fn operand(&self, dice: &mut Dice, nesting: u64) -> Operand {
        let below = |dice: &mut Dice| Box::new(self.operand(dice, nesting.saturating_sub(1)));
        match dice.below(if nesting == 0 { 6 } else { 9 }) {
            0 => Operand::Number(dice.pick(&[100.0, 99.5, 0.0, 1.0])),
            1 => self.series(dice),
            2..=5 => {
                let over = Box::new(self.series(dice));
                Operand::Extreme(dice.pick(&[9, 10]), over, dice.between(1, self.back) as u32)
            }
            6 => Operand::Prev(below(dice), dice.below(4) as u32),
            _ => Operand::Arith(dice.between(5, 8) as u8, below(dice), below(dice)),
        }
    }

    pub fn condition(&self, dice: &mut Dice, nesting: u64) -> Condition {
        let some = |dice: &mut Dice| self.operand(dice, 2);
        if nesting == 0 || dice.percent(40) {
            return match dice.below(10) {
                0 => Condition::Between(some(dice), some(dice), some(dice)),
                1 => Condition::Trend(dice.pick(&[25, 26]), some(dice), dice.below(4) as u32),
                _ => Condition::Compare(dice.between(16, 23) as u8, some(dice), some(dice)),
            };
        }
        let few = dice.between(1, 3);
        let below = |dice: &mut Dice| (0..few).map(|_| self.condition(dice, nesting - 1)).collect();
        match dice.below(3) {
            0 => Condition::All(below(dice)),
            1 => Condition::Any(below(dice)),
            _ => Condition::Not(Box::new(self.condition(dice, nesting - 1))),
        }
    }
}
