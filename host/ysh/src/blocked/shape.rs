//! How a rule is made of its tests: by All, Any and Not alone. What a test says is the library's answer; what the tests' answers come to
//! is no more than all, any and not of them.

use yshturpa::layout::kind;
use yshturpa::Tree;

use crate::table::Forest;

/// A rule's conditions in the table's order; a test is one that has no condition below it.
pub struct Shape {
    pub parts: Vec<Part>,
    /// The parts that are tests.
    pub tests: Vec<usize>,
}

pub struct Part {
    pub node: usize,
    /// Its parent among the parts.
    pub above: Option<usize>,
    pub below: Vec<usize>,
    pub sort: Sort,
}

#[derive(Clone, Copy, Debug, PartialEq, Eq)]
pub enum Sort {
    /// The n-th of the tests.
    Test(usize),
    All,
    Any,
    Not,
}

impl Shape {
    /// The shape of a tree; none where it is absent.
    pub fn of(forest: &Forest, tree: Tree) -> Option<Shape> {
        let (_, root) = forest.roots.iter().find(|(there, _)| *there == tree)?;
        let mut shape = Shape { parts: Vec::new(), tests: Vec::new() };
        shape.put(forest, *root, None);
        Some(shape)
    }

    fn put(&mut self, forest: &Forest, node: usize, above: Option<usize>) -> usize {
        let at = self.parts.len();
        let sort = match forest.nodes[node].kind {
            kind::ALL => Sort::All,
            kind::ANY => Sort::Any,
            kind::NOT => Sort::Not,
            _ => {
                self.tests.push(at);
                Sort::Test(self.tests.len() - 1)
            }
        };
        self.parts.push(Part { node, above, below: Vec::new(), sort });
        if !matches!(sort, Sort::Test(_)) {
            let below = forest.children[node].iter().map(|&child| self.put(forest, child, Some(at))).collect();
            self.parts[at].below = below;
        }
        at
    }

    /// What each part says, the tests' answers being these. A part stands before what is below it.
    pub fn answers(&self, tests: &[bool], answers: &mut Vec<bool>) {
        answers.clear();
        answers.resize(self.parts.len(), false);
        for (at, part) in self.parts.iter().enumerate().rev() {
            let mut below = part.below.iter().map(|&child| answers[child]);
            let said = match part.sort {
                Sort::Test(n) => tests[n],
                Sort::All => below.all(|answer| answer),
                Sort::Any => below.any(|answer| answer),
                Sort::Not => !below.any(|answer| answer),
            };
            answers[at] = said;
        }
    }

    /// The tests whose answer alone, turned around, would turn the rule's around: each part above lets it through.
    pub fn turning(&self, answers: &[bool]) -> Vec<usize> {
        let mut through = vec![false; self.parts.len()];
        let mut found = Vec::new();
        for (at, part) in self.parts.iter().enumerate() {
            through[at] = match part.above {
                None => true,
                Some(above) => {
                    let others = |wanted: bool| {
                        self.parts[above].below.iter().all(|&other| other == at || answers[other] == wanted)
                    };
                    through[above]
                        && match self.parts[above].sort {
                            Sort::All => others(true),
                            Sort::Any => others(false),
                            _ => true,
                        }
                }
            };
            if let (true, Sort::Test(n)) = (through[at], part.sort) {
                found.push(n);
            }
        }
        found
    }

    /// The part of a node.
    pub fn part_of(&self, node: usize) -> Option<usize> {
        self.parts.iter().position(|part| part.node == node)
    }

    /// The tests at and below a part.
    pub fn tests_below(&self, at: usize) -> Vec<usize> {
        match self.parts[at].sort {
            Sort::Test(n) => vec![n],
            _ => self.parts[at].below.iter().flat_map(|&child| self.tests_below(child)).collect(),
        }
    }
}

#[cfg(test)]
mod tests {
    use super::*;
    use crate::table::{bytes_of, Node};

    /// All of (a, any of (b, not c), d), every test being `flat`.
    fn shape() -> Shape {
        let with = |kind, children| Node { children, ..Node::plain(kind) };
        let test = Node::plain(kind::IN_POSITION);
        let entry = [with(kind::ALL, 3), test, with(kind::ANY, 2), test, Node::plain(kind::NOT), test, test];
        let forest = Forest::of(&bytes_of(0, [&entry, &[Node::plain(kind::ANY)], &[], &[]])).unwrap();
        Shape::of(&forest, Tree::Entry).unwrap()
    }

    /// A test turns the rule exactly where the rule with its answer turned says otherwise.
    #[test]
    fn what_turns_a_rule() {
        let shape = shape();
        assert_eq!((shape.parts.len(), shape.tests.len()), (7, 4));
        let (mut answers, mut turned) = (Vec::new(), Vec::new());
        for bits in 0..16u32 {
            let tests: Vec<bool> = (0..4).map(|n| bits >> n & 1 == 1).collect();
            shape.answers(&tests, &mut answers);
            assert_eq!(answers[0], tests[0] && (tests[1] || !tests[2]) && tests[3]);
            let wanted: Vec<usize> = (0..4)
                .filter(|&n| {
                    let mut other = tests.clone();
                    other[n] = !other[n];
                    shape.answers(&other, &mut turned);
                    turned[0] != answers[0]
                })
                .collect();
            assert_eq!(shape.turning(&answers), wanted, "{tests:?}");
        }
    }
}
