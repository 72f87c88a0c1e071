//! The rule table of document 01, read into the text's conditions and written from them.
//!
//! A test tool: it takes accepted tables and panics on others.

use crate::registry::slot_name;
use crate::rules::{condition_lookback, BarRow};
use crate::spec::{Condition, IntPredicate, Operand, OperandExpr, PriceField};
use crate::words::Words;

#[derive(Debug, Clone)]
pub struct Table {
    pub slots: usize,
    /// Entry, exit, short entry, short exit.
    pub trees: [Option<Condition>; 4],
}

const HEADER: usize = 16;
const NODE: usize = 16;

fn number(bytes: &[u8]) -> u64 {
    bytes.iter().rev().fold(0, |n, &byte| n << 8 | u64::from(byte))
}

impl Table {
    pub fn of(bytes: &[u8]) -> Self {
        assert_eq!(&bytes[..3], b"RTB");
        let mut nodes = Nodes { bytes, at: 0 };
        let tree = |t: usize| {
            let count = number(&bytes[8 + 2 * t..10 + 2 * t]) as usize;
            let end = nodes.at + count;
            let tree = (count > 0).then(|| nodes.condition());
            assert_eq!(nodes.at, end, "tree {t} does not fill its count");
            tree
        };
        let trees: Vec<Option<Condition>> = (0..4).map(tree).collect();
        Self {
            slots: bytes[3].into(),
            trees: trees.try_into().expect("four trees"),
        }
    }

    /// The window: one more than the greatest reach.
    pub fn depth(&self) -> usize {
        1 + self.trees.iter().flatten().map(condition_lookback).max().unwrap_or(0)
    }

    pub fn bytes(&self) -> Vec<u8> {
        let trees: Vec<Vec<u8>> = self
            .trees
            .iter()
            .map(|tree| tree.as_ref().map_or(Vec::new(), nodes_of))
            .collect();
        let counts: Vec<u16> = trees.iter().map(|tree| (tree.len() / NODE) as u16).collect();
        let mut bytes = b"RTB".to_vec();
        bytes.push(self.slots as u8);
        bytes.extend(1u16.to_le_bytes());
        bytes.extend(counts.iter().sum::<u16>().to_le_bytes());
        counts.iter().for_each(|count| bytes.extend(count.to_le_bytes()));
        bytes.extend(trees.concat());
        bytes
    }
}

/// The nodes of a table, read in prefix order.
struct Nodes<'a> {
    bytes: &'a [u8],
    at: usize,
}

struct Node {
    kind: u8,
    selector: u8,
    children: usize,
    n: u32,
    constant: u64,
}

impl Nodes<'_> {
    fn next(&mut self) -> Node {
        let from = HEADER + NODE * self.at;
        let bytes = &self.bytes[from..from + NODE];
        self.at += 1;
        Node {
            kind: bytes[0],
            selector: bytes[1],
            children: number(&bytes[2..4]) as usize,
            n: number(&bytes[4..8]) as u32,
            constant: number(&bytes[8..16]),
        }
    }

    fn boxed(&mut self) -> Box<Operand> {
        Box::new(self.operand())
    }

    fn operand(&mut self) -> Operand {
        let node = self.next();
        let expr = match node.kind {
            1 => return Operand::Const(f64::from_bits(node.constant)),
            2 => return Operand::Ref(slot_name(node.n as usize)),
            3 => OperandExpr::Price(PRICES[usize::from(node.selector)]),
            4 => OperandExpr::Prev((self.boxed(), node.n)),
            5 => OperandExpr::Add((self.boxed(), self.boxed())),
            6 => OperandExpr::Sub((self.boxed(), self.boxed())),
            7 => OperandExpr::Mul((self.boxed(), self.boxed())),
            8 => OperandExpr::Div((self.boxed(), self.boxed())),
            kind => panic!("kind {kind} is no operand"),
        };
        Operand::Expr(Box::new(expr))
    }

    fn two(&mut self) -> (Operand, Operand) {
        (self.operand(), self.operand())
    }

    fn condition(&mut self) -> Condition {
        let node = self.next();
        match node.kind {
            16 => Condition::Gt(self.two()),
            17 => Condition::Lt(self.two()),
            18 => Condition::Ge(self.two()),
            19 => Condition::Le(self.two()),
            20 => Condition::Eq(self.two()),
            21 => Condition::Ne(self.two()),
            22 => Condition::CrossAbove(self.two()),
            23 => Condition::CrossBelow(self.two()),
            24 => Condition::Between((self.operand(), self.operand(), self.operand())),
            25 => Condition::Rising((self.operand(), node.n)),
            26 => Condition::Falling((self.operand(), node.n)),
            27 => Condition::All((0..node.children).map(|_| self.condition()).collect()),
            28 => Condition::Any((0..node.children).map(|_| self.condition()).collect()),
            29 => Condition::Not(Box::new(self.condition())),
            30 => Condition::InPosition(node.selector != 0),
            31 => Condition::BarsSinceEntry(predicate(node.selector, node.n)),
            kind => panic!("kind {kind} is no condition"),
        }
    }
}

const PRICES: [PriceField; 7] = [
    PriceField::Open,
    PriceField::High,
    PriceField::Low,
    PriceField::Close,
    PriceField::Volume,
    PriceField::Hlc3,
    PriceField::Ohlc4,
];

fn predicate(selector: u8, k: u32) -> IntPredicate {
    match selector {
        0 => IntPredicate::Gt(k),
        1 => IntPredicate::Lt(k),
        2 => IntPredicate::Ge(k),
        3 => IntPredicate::Le(k),
        4 => IntPredicate::Eq(k),
        _ => panic!("selector {selector} of BarsSinceEntry"),
    }
}

fn node(kind: u8, selector: u8, children: usize, n: u32, constant: u64) -> Vec<u8> {
    let mut bytes = vec![kind, selector];
    bytes.extend((children as u16).to_le_bytes());
    bytes.extend(n.to_le_bytes());
    bytes.extend(constant.to_le_bytes());
    bytes
}

fn plain(kind: u8, operands: &[&Operand]) -> Vec<u8> {
    let mut bytes = node(kind, 0, 0, 0, 0);
    operands
        .iter()
        .for_each(|operand| bytes.extend(nodes_of_operand(operand)));
    bytes
}

fn looking_back(kind: u8, n: u32, operand: &Operand) -> Vec<u8> {
    [node(kind, 0, 0, n, 0), nodes_of_operand(operand)].concat()
}

fn nodes_of_operand(operand: &Operand) -> Vec<u8> {
    let expr = match operand {
        Operand::Const(x) => return node(1, 0, 0, 0, x.to_bits()),
        Operand::Ref(name) => {
            let slot = name.trim_start_matches("slot").parse().expect("a slot's name");
            return node(2, 0, 0, slot, 0);
        }
        Operand::Expr(expr) => expr,
    };
    match expr.as_ref() {
        OperandExpr::Price(field) => {
            let selector = PRICES.iter().position(|f| f == field).expect("a price");
            node(3, selector as u8, 0, 0, 0)
        }
        OperandExpr::Prev((a, n)) => looking_back(4, *n, a),
        OperandExpr::Add((a, b)) => plain(5, &[a, b]),
        OperandExpr::Sub((a, b)) => plain(6, &[a, b]),
        OperandExpr::Mul((a, b)) => plain(7, &[a, b]),
        OperandExpr::Div((a, b)) => plain(8, &[a, b]),
    }
}

fn with_children(kind: u8, children: &[Condition]) -> Vec<u8> {
    let mut bytes = node(kind, 0, children.len(), 0, 0);
    children.iter().for_each(|child| bytes.extend(nodes_of(child)));
    bytes
}

/// The nodes of a condition, in prefix order.
pub fn nodes_of(condition: &Condition) -> Vec<u8> {
    match condition {
        Condition::Gt((a, b)) => plain(16, &[a, b]),
        Condition::Lt((a, b)) => plain(17, &[a, b]),
        Condition::Ge((a, b)) => plain(18, &[a, b]),
        Condition::Le((a, b)) => plain(19, &[a, b]),
        Condition::Eq((a, b)) => plain(20, &[a, b]),
        Condition::Ne((a, b)) => plain(21, &[a, b]),
        Condition::CrossAbove((a, b)) => plain(22, &[a, b]),
        Condition::CrossBelow((a, b)) => plain(23, &[a, b]),
        Condition::Between((x, low, high)) => plain(24, &[x, low, high]),
        Condition::Rising((a, n)) => looking_back(25, *n, a),
        Condition::Falling((a, n)) => looking_back(26, *n, a),
        Condition::All(children) => with_children(27, children),
        Condition::Any(children) => with_children(28, children),
        Condition::Not(child) => [node(29, 0, 0, 0, 0), nodes_of(child)].concat(),
        Condition::InPosition(want) => node(30, u8::from(*want), 0, 0, 0),
        Condition::BarsSinceEntry(predicate) => {
            let (selector, k) = match *predicate {
                IntPredicate::Gt(k) => (0, k),
                IntPredicate::Lt(k) => (1, k),
                IntPredicate::Ge(k) => (2, k),
                IntPredicate::Le(k) => (3, k),
                IntPredicate::Eq(k) => (4, k),
            };
            node(31, selector, 0, k, 0)
        }
    }
}

/// The slots of a bar or row: those whose bit is set in the mask.
pub fn slots_of(words: &mut Words, mask: u64, slots: usize) -> Vec<Option<f64>> {
    let slot = |k: usize| {
        let value = words.float();
        (mask >> k & 1 == 1).then_some(value)
    };
    (0..slots).map(slot).collect()
}

/// One row of 7 + K words.
pub fn row_of(words: &mut Words, slots: usize) -> BarRow {
    let candle = words.candle();
    let mask = words.word();
    let present = slots_of(words, mask, slots);
    let named = present
        .iter()
        .enumerate()
        .filter_map(|(k, value)| value.map(|x| (slot_name(k).as_str().into(), x)));
    BarRow {
        candle,
        values: named.collect(),
    }
}
