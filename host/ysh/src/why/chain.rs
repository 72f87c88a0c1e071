//! The chain of a rule at a bar, asked of the library; and where it ends at an All that says yes or an Any that says no, what each of
//! the nodes below says, each with a chain of its own.

use yshturpa::{why, By, Position, Rows, Tree, WhyLine};

use super::values::alone;
use crate::table::Forest;

/// The rules that are shown, each with its chain.
pub type Chains = Vec<(Tree, Vec<Link>)>;

/// A line of the chain, how many lines lead to it, and its node's number in the whole table.
#[derive(Clone, Copy, Debug, PartialEq)]
pub struct Link {
    pub level: usize,
    pub line: WhyLine,
}

/// The chain of a tree, with what is below its last line; nothing where the tree is absent.
pub fn chain(
    table: &[u8],
    forest: &Forest,
    tree: Tree,
    rows: &Rows,
    position: &Position,
) -> Result<Vec<Link>, yshturpa::Error> {
    let lines = why(table, tree, rows, position)?;
    let mut links = Vec::new();
    put(forest, lines, 0, rows, position, &mut links)?;
    Ok(links)
}

fn put(
    forest: &Forest,
    lines: Vec<WhyLine>,
    level: usize,
    rows: &Rows,
    position: &Position,
    links: &mut Vec<Link>,
) -> Result<(), yshturpa::Error> {
    let last = lines.last().copied();
    let below = level + lines.len();
    links.extend(lines.into_iter().enumerate().map(|(n, line)| Link { level: level + n, line }));
    let Some(WhyLine { node, by: By::Below, .. }) = last else { return Ok(()) };
    for &child in &forest.children[node] {
        let table = alone(forest, &forest.nodes[child..forest.end(child)]);
        let lines = why(&table, Tree::Entry, rows, position)?.into_iter().map(|line| moved(line, child)).collect();
        put(forest, lines, below, rows, position, links)?;
    }
    Ok(())
}

/// A line of a table that was cut out of a larger one, from a node on.
pub fn moved(line: WhyLine, by: usize) -> WhyLine {
    let decided = match line.by {
        By::Missing { leaf, back } => By::Missing { leaf: leaf + by, back },
        other => other,
    };
    WhyLine { node: line.node + by, by: decided, ..line }
}
