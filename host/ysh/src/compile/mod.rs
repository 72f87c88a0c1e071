//! From a strategy's rules to a rule table: each condition and operand is one node, in the document's order.

use std::collections::BTreeSet;

use yshturpa::layout::{MOST_NODES, MOST_SLOTS};
use yshturpa::{check, Refusal};

use crate::strategy::spec::{Condition, Strategy};
use crate::strategy::{counterpart, Fault};
use crate::table::bytes_of;

mod nodes;
mod settings;

use nodes::Found;
pub use settings::{entry_order_of, settings, sizing_of, slippage_of, warmup};

/// A strategy's rules as a table, what each slot is called, and where in the document each node comes from.
#[derive(Clone, Debug)]
pub struct Rules {
    pub table: Vec<u8>,
    pub names: Vec<String>,
    pub paths: Vec<String>,
}

/// Why a strategy has no table: something in the document, or a refusal of the library with the rule that it is about.
#[derive(Clone, Debug, PartialEq, Eq)]
pub enum Stopped {
    Fault(Fault),
    Refused(Fault, Refusal),
}

impl From<Fault> for Stopped {
    fn from(fault: Fault) -> Stopped {
        Stopped::Fault(fault)
    }
}

/// What a document leaves to whoever compiles it.
#[derive(Clone, Copy, Debug, Default)]
pub struct Choices<'a> {
    /// The slots in this order, read by a rule or not. Left out, they are the names that rules read, in the order of their letters.
    pub order: Option<&'a [String]>,
    /// A short exit that is left out stays absent, and is never yes. Otherwise it is the exit, as in the original.
    pub absent_short_exit: bool,
}

/// The table of a strategy that was read.
pub fn rules(strategy: &Strategy, choices: Choices) -> Result<Rules, Stopped> {
    counterpart::lacking(strategy)?;
    let trees = trees_of(strategy, choices.absent_short_exit);
    let read: BTreeSet<&str> =
        trees.iter().flat_map(|(_, tree)| tree.iter()).flat_map(|tree| nodes::names(tree)).collect();
    let names: Vec<String> = match choices.order {
        None => read.iter().map(|name| (*name).to_owned()).collect(),
        Some(order) => ordered(&read, order)?,
    };
    let mut found = Found::new(&names);
    let mut ends = [0; 4];
    for (end, (path, tree)) in ends.iter_mut().zip(trees) {
        if let Some(tree) = tree {
            found.condition(tree, path.to_owned());
        }
        *end = found.nodes.len();
    }
    let Found { nodes, paths, .. } = found;
    let [a, b, c, d] = ends;
    let table = bytes_of(names.len(), [&nodes[..a], &nodes[a..b], &nodes[b..c], &nodes[c..d]]);
    let rules = Rules { table, names, paths };
    match check(&rules.table) {
        Ok(_) => Ok(rules),
        Err(refusal) => Err(Stopped::Refused(limit(&rules, refusal), refusal)),
    }
}

/// The trees by their places in the document.
fn trees_of(strategy: &Strategy, absent_short_exit: bool) -> [(&'static str, Option<&Condition>); 4] {
    let short_exit = match (&strategy.short_entry, &strategy.short_exit) {
        (Some(_), None) if !absent_short_exit => ("exit", Some(&strategy.exit)),
        (_, tree) => ("short_exit", tree.as_ref()),
    };
    [
        ("entry", Some(&strategy.entry)),
        ("exit", Some(&strategy.exit)),
        ("short_entry", strategy.short_entry.as_ref()),
        short_exit,
    ]
}

fn ordered(read: &BTreeSet<&str>, order: &[String]) -> Result<Vec<String>, Fault> {
    let given: BTreeSet<&str> = order.iter().map(String::as_str).collect();
    if let Some(name) = read.iter().find(|name| !given.contains(**name)) {
        return Err(Fault::new("--slots", format!("{name:?} is read by a rule, and was expected among the slots")));
    }
    if given.len() != order.len() {
        return Err(Fault::new("--slots", "each name was expected once"));
    }
    Ok(order.to_vec())
}

/// The rule that breaks a limit which a table sets.
fn limit(rules: &Rules, refusal: Refusal) -> Fault {
    let path = |node: usize| rules.paths.get(node).cloned().unwrap_or_default();
    if refusal.number == 4 && rules.names.len() > MOST_SLOTS {
        let name = &rules.names[MOST_SLOTS];
        let text = format!("the rules read {} slots, and a table has at most {MOST_SLOTS}", rules.names.len());
        return Fault::new(format!("{name:?}"), text);
    }
    if refusal.number == 4 {
        let text = format!("the rules have {} nodes, and a table has at most {MOST_NODES}", rules.paths.len());
        return Fault::new(path(MOST_NODES), text);
    }
    let node = refusal.place as usize;
    Fault::new(path(node), format!("{} (node {node})", refusal.meaning()))
}
