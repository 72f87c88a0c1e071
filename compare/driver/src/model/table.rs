//! Refusals 1 to 9 of a rule table, each over the whole table, in this order.

use super::{finite, refusal};

const MOST_NODES: usize = 256;
const MOST_SLOTS: u8 = 64;
const MOST_LEVELS: usize = 32;
const MOST_REACH: u64 = 4_095;

#[derive(Clone, Copy, PartialEq, Eq)]
pub enum Sort {
    Operand,
    Condition,
    /// An operand that is a Price or a Ref.
    Series,
}

pub struct Node {
    pub kind: u8,
    selector: u8,
    children: u16,
    n: u32,
    constant: u64,
}

/// The table's fields, where it has them.
pub struct Fields<'a>(pub &'a [u8]);

impl Fields<'_> {
    fn u16(&self, at: usize) -> u16 {
        u16::from_le_bytes([self.0[at], self.0[at + 1]])
    }

    fn counts(&self) -> [usize; 4] {
        [8, 10, 12, 14].map(|at| self.u16(at).into())
    }

    pub fn total(&self) -> usize {
        self.u16(6).into()
    }

    pub fn node(&self, i: usize) -> Node {
        let bytes = &self.0[16 + 16 * i..32 + 16 * i];
        let number = |bytes: &[u8]| bytes.iter().rev().fold(0, |n, &byte| n << 8 | u64::from(byte));
        Node {
            kind: bytes[0],
            selector: bytes[1],
            children: number(&bytes[2..4]) as u16,
            n: number(&bytes[4..8]) as u32,
            constant: number(&bytes[8..16]),
        }
    }
}

impl Node {
    fn sort(&self) -> Sort {
        match self.kind {
            1..=10 => Sort::Operand,
            _ => Sort::Condition,
        }
    }

    /// Whether it can stand where that sort is wanted.
    fn fits(&self, wanted: Sort) -> bool {
        match wanted {
            Sort::Series => matches!(self.kind, 2 | 3),
            _ => self.sort() == wanted,
        }
    }

    /// How many children, and of which sort.
    pub fn below(&self) -> (usize, Sort) {
        match self.kind {
            4 | 25 | 26 => (1, Sort::Operand),
            9 | 10 => (1, Sort::Series),
            5..=8 | 16..=23 => (2, Sort::Operand),
            24 => (3, Sort::Operand),
            27 | 28 => (self.children.into(), Sort::Condition),
            29 => (1, Sort::Condition),
            _ => (0, Sort::Operand),
        }
    }

    /// Whether its own bytes are right: a kind that the version knows, its fields in range, the others zero.
    fn is_right(&self, version: u16, slots: u8) -> bool {
        let selectors = match self.kind {
            3 => 7,
            30 => 2,
            31 => 5,
            1 | 2 | 4..=8 | 16..=29 => 1,
            9 | 10 if version == 2 => 1,
            _ => return false,
        };
        let n = match self.kind {
            2 => self.n < slots.into(),
            4 | 25 | 26 | 31 => true,
            9 | 10 => (1..=MOST_REACH).contains(&self.n.into()),
            _ => self.n == 0,
        };
        let children = matches!(self.kind, 27 | 28) || self.children == 0;
        let constant = if self.kind == 1 {
            finite(self.constant)
        } else {
            self.constant == 0
        };
        self.selector < selectors && n && children && constant
    }

    /// What its kind adds to the reach of what is below it.
    pub fn back(&self) -> u64 {
        match self.kind {
            4 | 25 | 26 => self.n.into(),
            22 | 23 => 1,
            9 | 10 => u64::from(self.n) - 1,
            _ => 0,
        }
    }
}

/// A tree read in prefix order.
struct Walk {
    /// Where it cannot go on, if so (7).
    misfit: Option<usize>,
    /// The lowest node nested too deep (8).
    too_deep: Option<usize>,
    reach: u64,
}

/// Walks the tree of nodes `from` to `end` - 1.
fn walk(table: &Fields, from: usize, end: usize) -> Walk {
    // What is still to come, innermost last: how many, of which sort, and what lies back of them.
    let mut waiting = vec![(1usize, Sort::Condition, 0u64)];
    let mut walk = Walk {
        misfit: None,
        too_deep: None,
        reach: 0,
    };
    let mut at = from;
    loop {
        while waiting.last().is_some_and(|last| last.0 == 0) {
            waiting.pop();
        }
        let level = waiting.len();
        let Some(last) = waiting.last_mut() else {
            walk.misfit = (at < end).then_some(at);
            return walk;
        };
        if at == end || !table.node(at).fits(last.1) {
            walk.misfit = Some(at);
            return walk;
        }
        last.0 -= 1;
        let node = table.node(at);
        let back = last.2 + node.back();
        walk.reach = walk.reach.max(back);
        if level > MOST_LEVELS {
            walk.too_deep = walk.too_deep.or(Some(at));
        }
        let (count, sort) = node.below();
        // A level for each node on the way down, also where the last child of one is read.
        waiting.push((count, sort, back));
        at += 1;
        if count == 0 {
            waiting.pop();
        }
    }
}

/// What the check of a table answers: its nodes and the rows its rules need, or a refusal.
pub fn checked(bytes: &[u8]) -> Result<(u64, u64), u64> {
    if bytes.len() < 16 {
        return Err(refusal(1, 0));
    }
    let table = Fields(bytes);
    if &bytes[..3] != b"RTB" {
        return Err(refusal(2, 0));
    }
    let version = table.u16(4);
    if !(1..=2).contains(&version) {
        return Err(refusal(3, 0));
    }
    let (counts, total) = (table.counts(), table.total());
    let counts_right = counts[0] >= 1 && counts[1] >= 1 && counts.iter().sum::<usize>() == total;
    if bytes[3] > MOST_SLOTS || !(2..=MOST_NODES).contains(&total) || !counts_right {
        return Err(refusal(4, 0));
    }
    if bytes.len() != 16 + 16 * total {
        return Err(refusal(5, 0));
    }
    if let Some(wrong) = (0..total).find(|&i| !table.node(i).is_right(version, bytes[3])) {
        return Err(refusal(6, wrong as u64));
    }
    let roots = |tree: usize| counts[..tree].iter().sum::<usize>();
    let present = (0..4).filter(|&tree| counts[tree] > 0);
    let walks: Vec<(usize, Walk)> = present
        .map(|tree| (roots(tree), walk(&table, roots(tree), roots(tree + 1))))
        .collect();
    if let Some(place) = walks.iter().find_map(|(_, walk)| walk.misfit) {
        return Err(refusal(7, place as u64));
    }
    if let Some(place) = walks.iter().find_map(|(_, walk)| walk.too_deep) {
        return Err(refusal(8, place as u64));
    }
    if let Some((root, _)) = walks.iter().find(|(_, walk)| walk.reach > MOST_REACH) {
        return Err(refusal(9, *root as u64));
    }
    let reach = walks.iter().map(|(_, walk)| walk.reach).max().unwrap_or(0);
    Ok((total as u64, reach + 1))
}

/// The nodes of a tree of an accepted table; 0 where it is absent or the number is another.
pub fn nodes_of_tree(bytes: &[u8], tree: u64) -> u64 {
    let counts = Fields(bytes).counts();
    counts.get(tree as usize).copied().unwrap_or(0) as u64
}

pub fn slots(bytes: &[u8]) -> u64 {
    bytes[3].into()
}

#[cfg(test)]
mod tests {
    use super::{checked, refusal};
    use oracle::lists::trees::{arith, close, compare, negated, never, number, prev, slot};
    use oracle::spec::Condition;
    use oracle::table::Table;

    fn of(slots: usize, entry: Condition, exit: Condition) -> Vec<u8> {
        let trees = [Some(entry), Some(exit), None, None];
        Table { slots, trees }.bytes()
    }

    /// The paper's example: seven nodes, 128 bytes, three rows.
    fn example() -> Vec<u8> {
        of(2, compare(22, slot(0), slot(1)), compare(17, close(), prev(close(), 2)))
    }

    #[test]
    fn the_example_is_accepted() {
        assert_eq!(example().len(), 128);
        assert_eq!(checked(&example()), Ok((7, 3)));
    }

    #[test]
    fn headers() {
        let with = |at: usize, byte: u8| {
            let mut table = example();
            table[at] = byte;
            checked(&table)
        };
        assert_eq!(checked(&example()[..15]), Err(refusal(1, 0)));
        assert_eq!(with(2, b'C'), Err(refusal(2, 0)));
        assert_eq!(with(4, 0), Err(refusal(3, 0)));
        assert_eq!(with(4, 2), Ok((7, 3)));
        assert_eq!(with(4, 3), Err(refusal(3, 0)));
        assert_eq!(with(3, 65), Err(refusal(4, 0)));
        assert_eq!(with(8, 0), Err(refusal(4, 0)));
        assert_eq!(checked(&example()[..127]), Err(refusal(5, 0)));
    }

    #[test]
    fn nodes_and_trees() {
        let with = |at: usize, byte: u8| {
            let mut table = example();
            table[at] = byte;
            checked(&table)
        };
        let node = |i: usize| 16 + 16 * i;
        assert_eq!(with(node(2) + 4, 2), Err(refusal(6, 2)), "slot 2 of 2");
        assert_eq!(
            with(node(1), 29),
            Err(refusal(7, 1)),
            "a condition in an operand's place"
        );
        assert_eq!(
            with(node(4), 30),
            Err(refusal(6, 4)),
            "a selector that InPosition has not"
        );
        let mut short = example();
        (short[8], short[10]) = (2, 5);
        assert_eq!(checked(&short), Err(refusal(7, 2)), "entry is cut short");
        let mut long = example();
        (long[8], long[10]) = (4, 3);
        assert_eq!(checked(&long), Err(refusal(7, 3)), "entry is complete too soon");
    }

    /// Lt(close, Highest(close, 20)) as the exit, in the place of the example's Prev.
    #[test]
    fn highest_and_lowest() {
        let with = |version: u8, kind: u8, n: u16, child: u8| {
            let mut table = example();
            table[4] = version;
            table[16 + 16 * 5] = kind;
            table[16 + 16 * 5 + 4..16 + 16 * 5 + 6].copy_from_slice(&n.to_le_bytes());
            table[16 + 16 * 6] = child;
            checked(&table)
        };
        assert_eq!(with(2, 9, 20, 3), Ok((7, 20)));
        assert_eq!(with(2, 10, 4_095, 3), Ok((7, 4_095)));
        assert_eq!(with(1, 9, 20, 3), Err(refusal(6, 5)), "version 1 has none");
        assert_eq!(with(2, 9, 0, 3), Err(refusal(6, 5)));
        assert_eq!(with(2, 9, 4_096, 3), Err(refusal(6, 5)));
        assert_eq!(with(2, 11, 20, 3), Err(refusal(6, 5)), "no such kind");
        let mut over_a_prev = example();
        over_a_prev[4] = 2;
        (over_a_prev[16 + 16 * 3], over_a_prev[16 + 16 * 4]) = (25, 9);
        over_a_prev[16 + 16 * 4 + 1] = 0;
        over_a_prev[16 + 16 * 4 + 4] = 3;
        assert_eq!(checked(&over_a_prev), Err(refusal(7, 5)), "no Price and no Ref");
    }

    #[test]
    fn nesting_and_reach() {
        let nest = |levels: usize| (1..levels).fold(never(), |inner, _| negated(inner));
        assert_eq!(checked(&of(0, nest(32), never())), Ok((33, 1)));
        assert_eq!(checked(&of(0, nest(33), never())), Err(refusal(8, 32)));
        let deep = |levels: usize| (1..levels).fold(close(), |inner, _| arith(5, number(1.0), inner));
        assert!(checked(&of(0, compare(16, deep(31), number(0.0)), never())).is_ok());
        // Node 0, then at each level Add and its 1: the 33rd level begins with node 62.
        assert_eq!(
            checked(&of(0, compare(16, deep(32), number(0.0)), never())),
            Err(refusal(8, 62))
        );
        let far = |n: u32| of(0, never(), compare(22, prev(close(), n), close()));
        assert_eq!(checked(&far(4_094)), Ok((5, 4_096)));
        assert_eq!(checked(&far(4_095)), Err(refusal(9, 1)));
    }
}
