//! What a rule and each of its tests say at many bars, asked of the library: the rule's chain, and for each test the chain of a table that
//! holds the test alone. All questions about many bars are asked here.

use yshturpa::{why_over, By, Position, Rows, Tree, WhyLine};

use super::shape::Shape;
use crate::source::Source;
use crate::why::chain::moved;
use crate::why::values::alone;

pub struct Asker<'a> {
    table: &'a [u8],
    tree: Tree,
    pub shape: &'a Shape,
    /// A table for each test, and the node that it was.
    tests: Vec<(Vec<u8>, usize)>,
}

/// What was answered at one bar.
#[derive(Clone, Debug)]
pub struct Answers {
    /// The part of the rule that the chain ends at.
    pub decided: usize,
    pub answer: bool,
    /// The line of each test, its node that of the rule's table.
    pub tests: Vec<WhyLine>,
}

/// Whether a test was no for want of a value or of bars.
pub fn is_missing(line: &WhyLine) -> bool {
    matches!(line.by, By::Missing { .. } | By::FirstBar | By::TooFewBars)
}

impl<'a> Asker<'a> {
    pub fn new(source: &'a Source, tree: Tree, shape: &'a Shape) -> Asker<'a> {
        let forest = &source.forest;
        let test = |&part: &usize| {
            let node = shape.parts[part].node;
            (alone(forest, &forest.nodes[node..forest.end(node)]), node)
        };
        Asker { table: &source.table, tree, shape, tests: shape.tests.iter().map(test).collect() }
    }

    /// What is answered at a row and those after it, one for each position.
    pub fn ask(&self, rows: &Rows, first: usize, positions: &[Position]) -> Result<Vec<Answers>, yshturpa::Error> {
        let chains = why_over(self.table, self.tree, rows, first, positions)?;
        let answered = |chain: &Vec<WhyLine>| {
            let (root, last) = (chain[0], chain[chain.len() - 1]);
            let decided = self.shape.part_of(last.node).expect("a chain ends at a condition");
            Answers { decided, answer: root.answer, tests: Vec::with_capacity(self.tests.len()) }
        };
        let mut answers: Vec<Answers> = chains.iter().map(answered).collect();
        // A rule that is one test has said it already.
        if self.shape.parts.len() == 1 {
            answers.iter_mut().zip(&chains).for_each(|(answers, chain)| answers.tests.push(chain[0]));
            return Ok(answers);
        }
        for (table, node) in &self.tests {
            let lines = why_over(table, Tree::Entry, rows, first, positions)?;
            answers.iter_mut().zip(lines).for_each(|(answers, lines)| answers.tests.push(moved(lines[0], *node)));
        }
        Ok(answers)
    }
}
