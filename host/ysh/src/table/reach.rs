//! How far back a node reaches, asked of the library: the tree below the node is made a table of its own, and `ysh_check` says how many
//! rows that needs. So no rule about reaches is written here.

use std::collections::BTreeMap;

use yshturpa::layout::kind;
use yshturpa::{check, Refusal, Tree};

use super::{bytes_of, Forest, Node};

/// How many bars before the newest a node looks. An operand is asked below a Rising over 0 bars, which adds nothing.
pub fn reach_of(forest: &Forest, node: usize) -> Result<u64, Refusal> {
    let below = &forest.nodes[node..forest.end(node)];
    let mut entry = Vec::with_capacity(below.len() + 1);
    if below[0].is_operand() {
        entry.push(Node::plain(kind::RISING));
    }
    entry.extend_from_slice(below);
    let never = [Node::plain(kind::ANY)];
    let table = bytes_of(forest.slots, [&entry, &never, &[], &[]]);
    Ok(check(&table)?.rows - 1)
}

/// What reaches deepest: a tree and the way from its root to the leaf that is read furthest back.
#[derive(Clone, Debug, PartialEq, Eq)]
pub struct Deepest {
    pub tree: Tree,
    pub reach: u64,
    pub path: Vec<usize>,
}

/// The deepest way of a tree, from its root: always to the first child that reaches furthest.
pub fn deepest_below(forest: &Forest, tree: Tree, root: usize) -> Result<Deepest, Refusal> {
    let reach = reach_of(forest, root)?;
    let mut path = vec![root];
    let mut left = reach;
    while left > 0 {
        let mut next = None;
        for &child in &forest.children[path[path.len() - 1]] {
            let reach = reach_of(forest, child)?;
            if next.map_or(true, |(_, most)| reach > most) {
                next = Some((child, reach));
            }
        }
        let Some((child, reach)) = next else { break };
        path.push(child);
        left = reach;
    }
    // The last node that adds bars stands on the way; go on to the leaf that is read there.
    while let Some(&child) = forest.children[path[path.len() - 1]].first() {
        path.push(child);
    }
    Ok(Deepest { tree, reach, path })
}

/// The deepest way of each tree that is there, in the table's order.
pub fn deepest(forest: &Forest) -> Result<Vec<Deepest>, Refusal> {
    forest.roots.iter().map(|&(tree, root)| deepest_below(forest, tree, root)).collect()
}

/// How far back a price or a slot is read at most, and the node that does so.
#[derive(Clone, Copy, Debug, PartialEq, Eq)]
pub struct Reads {
    pub back: u64,
    pub node: usize,
}

/// For each price (by selector) and each slot that is read: how far back. What a node adds is what it reaches more than what is below it.
pub fn reads(forest: &Forest, reaches: &[u64]) -> (BTreeMap<u8, Reads>, BTreeMap<u32, Reads>) {
    let (mut prices, mut slots) = (BTreeMap::new(), BTreeMap::new());
    let mut back = vec![0; forest.nodes.len()];
    for node in 0..forest.nodes.len() {
        let below = forest.children[node].iter().map(|&child| reaches[child]).max().unwrap_or(0);
        let adds = reaches[node] - below;
        back[node] = adds + forest.parents[node].map_or(0, |parent| back[parent]);
        let found = Reads { back: back[node], node };
        match forest.nodes[node] {
            Node { kind: kind::PRICE, selector, .. } => further(&mut prices, selector, found),
            Node { kind: kind::REF, n, .. } => further(&mut slots, n, found),
            _ => {}
        }
    }
    (prices, slots)
}

fn further<K: Ord>(all: &mut BTreeMap<K, Reads>, key: K, found: Reads) {
    let held = all.entry(key).or_insert(found);
    if found.back > held.back {
        *held = found;
    }
}

#[cfg(test)]
mod tests {
    use super::*;

    fn price(selector: u8) -> Node {
        Node { selector, ..Node::plain(kind::PRICE) }
    }

    fn back(kind: u8, n: u32) -> Node {
        Node { n, ..Node::plain(kind) }
    }

    /// Entry: all of (close > high 3 bars before the one 2 bars before, low rising over 4). Exit: slot 0 crosses above 1.
    fn forest() -> Forest {
        let all = Node { children: 2, ..Node::plain(kind::ALL) };
        let entry = [
            all,
            Node::plain(kind::GT),
            price(3),
            back(kind::PREV, 2),
            back(kind::PREV, 3),
            price(1),
            back(kind::RISING, 4),
            price(2),
        ];
        let exit = [Node::plain(kind::CROSS_ABOVE), back(kind::REF, 0), Node::constant(1.0)];
        Forest::of(&bytes_of(1, [&entry, &exit, &[], &[]])).unwrap()
    }

    #[test]
    fn reaches_are_the_librarys() {
        let forest = forest();
        let reaches: Vec<u64> = (0..forest.nodes.len()).map(|n| reach_of(&forest, n).unwrap()).collect();
        assert_eq!(reaches, [5, 5, 0, 5, 3, 0, 4, 0, 1, 0, 0]);
        let found = deepest(&forest).unwrap();
        assert_eq!((found[0].reach, &found[0].path[..]), (5, &[0, 1, 3, 4, 5][..]));
        assert_eq!((found[1].reach, &found[1].path[..]), (1, &[8, 9][..]));
    }

    #[test]
    fn how_far_back_each_is_read() {
        let forest = forest();
        let reaches: Vec<u64> = (0..forest.nodes.len()).map(|n| reach_of(&forest, n).unwrap()).collect();
        let (prices, slots) = reads(&forest, &reaches);
        let backs: Vec<(u8, u64)> = prices.iter().map(|(&price, read)| (price, read.back)).collect();
        assert_eq!(backs, [(1, 5), (2, 4), (3, 0)]);
        assert_eq!(slots[&0], Reads { back: 1, node: 9 });
    }
}
