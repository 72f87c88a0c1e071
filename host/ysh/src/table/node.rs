//! A node of a rule table: its 16 bytes, and how many children it has.

use yshturpa::layout::{kind, NODE_BYTES};

#[derive(Clone, Copy, Debug, PartialEq, Eq)]
pub struct Node {
    pub kind: u8,
    pub selector: u8,
    pub children: u16,
    pub n: u32,
    pub constant: u64,
}

impl Node {
    pub fn plain(kind: u8) -> Node {
        Node { kind, selector: 0, children: 0, n: 0, constant: 0 }
    }

    pub fn constant(x: f64) -> Node {
        Node { constant: x.to_bits(), ..Node::plain(kind::CONST) }
    }

    pub fn bytes(&self) -> [u8; NODE_BYTES] {
        let mut bytes = [0; NODE_BYTES];
        bytes[0] = self.kind;
        bytes[1] = self.selector;
        bytes[2..4].copy_from_slice(&self.children.to_le_bytes());
        bytes[4..8].copy_from_slice(&self.n.to_le_bytes());
        bytes[8..].copy_from_slice(&self.constant.to_le_bytes());
        bytes
    }

    pub fn of(bytes: &[u8]) -> Node {
        let number = |range: std::ops::Range<usize>| bytes[range].iter().rev().fold(0, |n, &b| n << 8 | u64::from(b));
        Node {
            kind: bytes[0],
            selector: bytes[1],
            children: number(2..4) as u16,
            n: number(4..8) as u32,
            constant: number(8..16),
        }
    }

    /// How many nodes stand right below it.
    pub fn arity(&self) -> usize {
        match self.kind {
            kind::PREV | kind::RISING | kind::FALLING | kind::NOT => 1,
            kind::HIGHEST | kind::LOWEST => 1,
            kind::ADD..=kind::DIV | kind::GT..=kind::CROSS_BELOW => 2,
            kind::BETWEEN => 3,
            kind::ALL | kind::ANY => self.children.into(),
            _ => 0,
        }
    }

    /// A number: what is below a condition other than All, Any and Not.
    pub fn is_operand(&self) -> bool {
        self.kind < kind::GT
    }

    /// Over some bars: what only a table of the second version has.
    pub fn is_extreme(&self) -> bool {
        matches!(self.kind, kind::HIGHEST | kind::LOWEST)
    }

    /// A condition over numbers: what may fall silent.
    pub fn is_test(&self) -> bool {
        (kind::GT..=kind::FALLING).contains(&self.kind)
    }
}

#[cfg(test)]
mod tests {
    use super::*;

    #[test]
    fn a_node_is_its_bytes() {
        let node = Node { kind: 27, selector: 1, children: 0x0203, n: 0x04050607, constant: 0x08090a0b0c0d0e0f };
        assert_eq!(node.bytes(), [27, 1, 3, 2, 7, 6, 5, 4, 15, 14, 13, 12, 11, 10, 9, 8]);
        assert_eq!(Node::of(&node.bytes()), node);
    }
}
