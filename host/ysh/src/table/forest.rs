//! The four trees of an accepted table, and a table's bytes.

use yshturpa::layout::{HEADER_BYTES, MARK, NODE_BYTES, SECOND_VERSION, VERSION};
use yshturpa::{check, Refusal, Tree};

use super::Node;

/// The nodes of an accepted table, with the children of each and the root of each tree that is there.
#[derive(Clone, Debug)]
pub struct Forest {
    pub slots: usize,
    pub nodes: Vec<Node>,
    pub children: Vec<Vec<usize>>,
    pub parents: Vec<Option<usize>>,
    pub roots: Vec<(Tree, usize)>,
}

impl Forest {
    /// The trees of a table that the library accepts.
    pub fn of(table: &[u8]) -> Result<Forest, Refusal> {
        check(table)?;
        let nodes: Vec<Node> = table[HEADER_BYTES..].chunks_exact(NODE_BYTES).map(Node::of).collect();
        let mut forest = Forest {
            slots: table[3].into(),
            children: vec![Vec::new(); nodes.len()],
            parents: vec![None; nodes.len()],
            nodes,
            roots: Vec::new(),
        };
        let mut at = 0;
        for tree in Tree::ALL {
            let count = &table[8 + 2 * tree as usize..];
            if count[..2] != [0, 0] {
                forest.roots.push((tree, at));
                at = forest.place(at);
            }
        }
        Ok(forest)
    }

    /// Notes the children of the tree that begins at a node; where the tree ends.
    fn place(&mut self, node: usize) -> usize {
        let mut at = node + 1;
        for _ in 0..self.nodes[node].arity() {
            self.children[node].push(at);
            self.parents[at] = Some(node);
            at = self.place(at);
        }
        at
    }

    /// Where the tree that begins at a node ends.
    pub fn end(&self, node: usize) -> usize {
        self.children[node].last().map_or(node + 1, |&last| self.end(last))
    }

    /// The nodes from the root of its tree down to a node.
    pub fn path(&self, node: usize) -> Vec<usize> {
        let mut path: Vec<usize> = std::iter::successors(Some(node), |&n| self.parents[n]).collect();
        path.reverse();
        path
    }

    /// The tree that a node stands in.
    pub fn tree(&self, node: usize) -> Tree {
        let root = self.path(node)[0];
        self.roots.iter().find(|(_, at)| *at == root).map_or(Tree::Entry, |(tree, _)| *tree)
    }

    /// The nodes of a tree that is there; none where it is absent.
    pub fn tree_nodes(&self, tree: Tree) -> &[Node] {
        match self.roots.iter().find(|(there, _)| *there == tree) {
            None => &[],
            Some(&(_, root)) => &self.nodes[root..self.end(root)],
        }
    }
}

/// The bytes of a table. A count that its field cannot hold is written as the greatest that it can, and refused for it.
pub fn bytes_of(slots: usize, trees: [&[Node]; 4]) -> Vec<u8> {
    let count = |n: usize| u16::try_from(n).unwrap_or(u16::MAX).to_le_bytes();
    let mut bytes = MARK.to_vec();
    bytes.push(u8::try_from(slots).unwrap_or(u8::MAX));
    let second = trees.iter().flat_map(|tree| tree.iter()).any(Node::is_extreme);
    bytes.extend((if second { SECOND_VERSION } else { VERSION }).to_le_bytes());
    bytes.extend(count(trees.iter().map(|tree| tree.len()).sum()));
    trees.iter().for_each(|tree| bytes.extend(count(tree.len())));
    trees.iter().flat_map(|tree| tree.iter()).for_each(|node| bytes.extend(node.bytes()));
    bytes
}

#[cfg(test)]
mod tests {
    use super::*;
    use yshturpa::layout::kind;

    #[test]
    fn the_papers_example() {
        let slot = |n| Node { n, ..Node::plain(kind::REF) };
        let close = Node { selector: 3, ..Node::plain(kind::PRICE) };
        let entry = [Node::plain(kind::CROSS_ABOVE), slot(0), slot(1)];
        let exit = [Node::plain(kind::LT), close, Node { n: 2, ..Node::plain(kind::PREV) }, close];
        let table = bytes_of(2, [&entry, &exit, &[], &[]]);
        assert_eq!(table.len(), 128);
        let forest = Forest::of(&table).unwrap();
        assert_eq!(forest.roots, [(Tree::Entry, 0), (Tree::Exit, 3)]);
        assert_eq!(forest.children[3], [4, 5]);
        assert_eq!((forest.path(6), forest.tree(6)), (vec![3, 5, 6], Tree::Exit));
        assert_eq!((forest.tree_nodes(Tree::Exit), forest.tree_nodes(Tree::ShortExit)), (&exit[..], &[][..]));
    }

    #[test]
    fn the_second_version_is_for_what_needs_it() {
        let any = [Node::plain(kind::ANY)];
        let highest = [Node::plain(kind::GT), Node { n: 20, ..Node::plain(kind::HIGHEST) }, Node::plain(kind::PRICE)];
        assert_eq!((bytes_of(0, [&any, &any, &[], &[]])[4], bytes_of(0, [&highest, &any, &[], &[]])[4]), (1, 2));
    }

    #[test]
    fn more_than_a_table_holds_is_refused() {
        let many = vec![Node::plain(kind::ANY); 70_000];
        assert_eq!(Forest::of(&bytes_of(300, [&many, &many, &[], &[]])).unwrap_err().number, 4);
    }
}
