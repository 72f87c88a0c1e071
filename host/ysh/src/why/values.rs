//! What each node of a rule says or is at a bar, asked of the library: the tree below a node is made a table of its own. So no rule is
//! evaluated here.

use yshturpa::layout::kind;
use yshturpa::{rule, why, By, Position, Rows, Tree};

use crate::show::rounded;
use crate::table::{bytes_of, Forest, Node};

/// A node's answer or value, in words; nothing where it cannot be asked alone, a table's limits being what they are.
pub enum Value {
    Says(bool),
    Is(String),
    Missing,
    Unknown,
}

pub fn value_of(forest: &Forest, node: usize, rows: &Rows, position: &Position) -> Value {
    match forest.nodes[node].is_operand() {
        true => operand(forest, node, rows, position),
        false => condition(forest, node, rows, position),
    }
}

/// A table with these nodes alone as its entry.
pub fn alone(forest: &Forest, entry: &[Node]) -> Vec<u8> {
    let never = [Node::plain(kind::ANY)];
    bytes_of(forest.slots, [entry, &never, &[], &[]])
}

fn condition(forest: &Forest, node: usize, rows: &Rows, position: &Position) -> Value {
    let table = alone(forest, &forest.nodes[node..forest.end(node)]);
    rule(&table, Tree::Entry, rows, position).map_or(Value::Unknown, Value::Says)
}

/// The operand beside itself in a comparison, whose chain has its value; read as many bars back as the Prevs above it say.
fn operand(forest: &Forest, node: usize, rows: &Rows, position: &Position) -> Value {
    let prevs = forest.path(node).into_iter().filter(|&above| above != node && forest.nodes[above].kind == kind::PREV);
    let Ok(back) = u32::try_from(prevs.map(|above| u64::from(forest.nodes[above].n)).sum::<u64>()) else {
        return Value::Unknown;
    };
    let below = &forest.nodes[node..forest.end(node)];
    let mut entry = vec![Node::plain(kind::GT), Node { n: back, ..Node::plain(kind::PREV) }];
    entry.extend_from_slice(below);
    entry.push(Node::constant(0.0));
    match why(&alone(forest, &entry), Tree::Entry, rows, position).map(|lines| lines.first().map(|line| line.by)) {
        Ok(Some(By::Values(values, _))) => Value::Is(rounded(values[0])),
        Ok(Some(By::Missing { .. })) => Value::Missing,
        _ => Value::Unknown,
    }
}
