//! A chain in words: names in place of slots, values, what was missing and how many bars back.

use yshturpa::layout::kind;
use yshturpa::{By, Position, WhyLine};

use super::moment::is_flat;
use crate::columns::counted;
use crate::show::rounded;
use crate::table::{Forest, Words};

/// What a chain is told with.
pub struct Telling<'a> {
    pub forest: &'a Forest,
    pub names: &'a [String],
    pub position: &'a Position,
    /// The bars that there are, this one counted.
    pub bars: u64,
}

pub fn yes(answer: bool) -> &'static str {
    if answer {
        "yes"
    } else {
        "no"
    }
}

impl Telling<'_> {
    fn words(&self) -> Words<'_> {
        Words { forest: self.forest, names: self.names }
    }

    /// A line of the chain, without its node's number.
    pub fn line(&self, line: &WhyLine) -> String {
        self.line_with(line, &mut rounded)
    }

    /// The same with its values told otherwise.
    pub fn line_with(&self, line: &WhyLine, told: &mut dyn FnMut(f64) -> String) -> String {
        let node = line.node;
        let said = yes(line.answer);
        let rule = match line.by {
            By::Below => self.words().label(node),
            _ => self.words().whole(node),
        };
        format!("{rule}: {said}, {}", self.because(line, told))
    }

    fn because(&self, line: &WhyLine, told: &mut dyn FnMut(f64) -> String) -> String {
        match line.by {
            By::Below => self.below(line),
            By::Values(values, count) => self.values(line.node, &values[..count], told),
            By::Missing { leaf, back } => self.missing(leaf, back),
            By::FirstBar => "a cross needs a bar before this one, and this is the first".to_owned(),
            By::TooFewBars => {
                let back = counted(self.forest.nodes[line.node].n.into(), "bar", "bars");
                format!("it looks {back} back, and there {} so far", self.there())
            }
            By::Position if is_flat(self.position) => "there is no position".to_owned(),
            By::Position => "there is a position".to_owned(),
            By::Since(bars) => format!("the entry was {} ago", counted(bars, "bar", "bars")),
            By::NoEntry => "there is no position, so no bars are counted".to_owned(),
        }
    }

    fn below(&self, line: &WhyLine) -> String {
        let children = self.forest.children[line.node].len();
        match (self.forest.nodes[line.node].kind, line.answer) {
            (kind::ALL, true) if children == 0 => "as there is nothing to ask".to_owned(),
            (kind::ALL, true) => "each of them says yes".to_owned(),
            (kind::ALL, false) => "as one of them says no, the first that does being".to_owned(),
            (kind::ANY, false) if children == 0 => "as there is nothing to ask".to_owned(),
            (kind::ANY, false) => "none of them says yes".to_owned(),
            (kind::ANY, true) => "as one of them says yes, the first that does being".to_owned(),
            (_, answer) => format!("as it turns around what says {}", yes(!answer)),
        }
    }

    /// Each value with what it is of; of a cross those before as well, of Rising and Falling now and then.
    fn values(&self, node: usize, values: &[f64], told: &mut dyn FnMut(f64) -> String) -> String {
        let below = &self.forest.children[node];
        let of = |child: usize| self.words().whole(below[child]);
        // Told in the order in which they stand in the line.
        let values: Vec<String> = values.iter().map(|value| told(*value)).collect();
        let is = |child: usize, value: &String| match self.forest.nodes[below[child]].kind {
            kind::CONST => value.clone(),
            _ => format!("{} is {value}", of(child)),
        };
        match (self.forest.nodes[node].kind, &values[..]) {
            (kind::CROSS_ABOVE | kind::CROSS_BELOW, [a, b, a_before, b_before]) => {
                let before = format!("a bar before they were {a_before} and {b_before}");
                format!("{} and {}; {before}", is(0, a), is(1, b))
            }
            (kind::RISING | kind::FALLING, [now, then]) => {
                let back = counted(self.forest.nodes[node].n.into(), "bar", "bars");
                format!("{}, and {back} before it was {then}", is(0, now))
            }
            _ => {
                let all: Vec<String> = values.iter().take(below.len()).enumerate().map(|(k, v)| is(k, v)).collect();
                all.join(", ")
            }
        }
    }

    fn missing(&self, leaf: usize, back: u64) -> String {
        let name = self.words().label(leaf);
        let at = match back {
            0 => "at this bar".to_owned(),
            n => format!("{} back", counted(n, "bar", "bars")),
        };
        match back < self.bars {
            true => format!("as {name} has no value {at}"),
            false => format!("as {name} is looked for {at}, and there {} so far", self.there()),
        }
    }

    /// `is 1 bar`, `are 5 bars`.
    fn there(&self) -> String {
        format!("{} {}", if self.bars == 1 { "is" } else { "are" }, counted(self.bars, "bar", "bars"))
    }
}
