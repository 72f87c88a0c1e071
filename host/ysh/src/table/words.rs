//! Nodes in words, with names in place of slot numbers where there are names.

use yshturpa::layout::kind;

use super::Forest;
use crate::columns::grouped;
use crate::show::shown;

/// The prices, by selector.
const PRICES: [&str; 7] = ["open", "high", "low", "close", "volume", "hlc3", "ohlc4"];

/// The comparisons of bars since entry, by selector.
const SINCE: [&str; 5] = [">", "<", ">=", "<=", "="];

/// The words of a table's nodes.
pub struct Words<'a> {
    pub forest: &'a Forest,
    pub names: &'a [String],
}

impl Words<'_> {
    /// A price's name.
    pub fn price(selector: u8) -> &'static str {
        PRICES.get(usize::from(selector)).copied().unwrap_or("ohlc4")
    }

    /// A slot's name, or its number.
    pub fn slot(&self, n: u32) -> String {
        self.names.get(n as usize).map_or_else(|| format!("slot {n}"), |name| shown(name))
    }

    /// The node alone, without what is below it.
    pub fn label(&self, node: usize) -> String {
        let it = &self.forest.nodes[node];
        match it.kind {
            kind::CONST => number(f64::from_bits(it.constant)),
            kind::REF => self.slot(it.n),
            kind::PRICE => Words::price(it.selector).to_owned(),
            kind::PREV => format!("{} before", bars(it.n)),
            kind::HIGHEST => format!("highest over {}", bars(it.n)),
            kind::LOWEST => format!("lowest over {}", bars(it.n)),
            kind::RISING => format!("rising over {}", bars(it.n)),
            kind::FALLING => format!("falling over {}", bars(it.n)),
            kind::ALL => format!("all of {}", it.children),
            kind::ANY => format!("any of {}", it.children),
            kind::IN_POSITION if it.selector == 0 => "flat".to_owned(),
            kind::IN_POSITION => "in a position".to_owned(),
            kind::BARS_SINCE_ENTRY => {
                let compare = SINCE.get(usize::from(it.selector)).unwrap_or(&"=");
                format!("bars since entry {compare} {}", it.n)
            }
            kind => sign(kind).to_owned(),
        }
    }

    /// The node with all that is below it.
    pub fn whole(&self, node: usize) -> String {
        let it = &self.forest.nodes[node];
        let below: Vec<String> = self.forest.children[node].iter().map(|&child| self.part(child)).collect();
        match it.kind {
            kind::PREV => format!("{} {} before", below[0], bars(it.n)),
            kind::BETWEEN => format!("{} between {} and {}", below[0], below[1], below[2]),
            kind::RISING | kind::FALLING => format!("{} {}", below[0], self.label(node)),
            kind::HIGHEST => format!("highest {} over {}", below[0], bars(it.n)),
            kind::LOWEST => format!("lowest {} over {}", below[0], bars(it.n)),
            kind::ALL if below.is_empty() => "always".to_owned(),
            kind::ANY if below.is_empty() => "never".to_owned(),
            kind::ALL => below.join(" and "),
            kind::ANY => below.join(" or "),
            kind::NOT => format!("not {}", below[0]),
            _ if below.len() == 2 => format!("{} {} {}", below[0], sign(it.kind), below[1]),
            _ => self.label(node),
        }
    }

    /// The node as a part of what is above it: in brackets where it has parts itself.
    fn part(&self, node: usize) -> String {
        let it = &self.forest.nodes[node];
        let alone = self.forest.children[node].is_empty() || it.kind == kind::PREV && !self.under_prev(node);
        match alone {
            true => self.whole(node),
            false => format!("({})", self.whole(node)),
        }
    }

    fn under_prev(&self, node: usize) -> bool {
        self.forest.parents[node].is_some_and(|parent| self.forest.nodes[parent].kind == kind::PREV)
    }

    /// A way of nodes, such as `#0 all of 2 › #4 > › #6 14 bars before › #7 high`.
    pub fn way(&self, path: &[usize]) -> String {
        path.iter().map(|&node| format!("#{node} {}", self.label(node))).collect::<Vec<_>>().join(" › ")
    }
}

fn bars(n: u32) -> String {
    match n {
        1 => "1 bar".to_owned(),
        n => format!("{} bars", grouped(n.into())),
    }
}

fn sign(kind: u8) -> &'static str {
    match kind {
        kind::ADD => "+",
        kind::SUB => "-",
        kind::MUL => "*",
        kind::DIV => "/",
        kind::GT => ">",
        kind::LT => "<",
        kind::GE => ">=",
        kind::LE => "<=",
        kind::EQ => "=",
        kind::NE => "!=",
        kind::CROSS_ABOVE => "crosses above",
        kind::CROSS_BELOW => "crosses below",
        kind::BETWEEN => "between",
        kind::NOT => "not",
        _ => "?",
    }
}

/// The shortest decimal that reads as this float again.
pub fn number(x: f64) -> String {
    let text = format!("{x:?}");
    text.strip_suffix(".0").unwrap_or(&text).to_owned()
}

#[cfg(test)]
mod tests {
    use super::*;
    use crate::table::{bytes_of, Node};

    #[test]
    fn a_rule_in_words() {
        let n = |kind, n| Node { n, ..Node::plain(kind) };
        let all = Node { children: 2, ..Node::plain(kind::ALL) };
        let high = Node { selector: 1, ..Node::plain(kind::PRICE) };
        let since = Node { selector: 2, n: 5, ..Node::plain(kind::BARS_SINCE_ENTRY) };
        let sum = Node::plain(kind::ADD);
        let entry =
            [all, Node::plain(kind::GT), n(kind::PREV, 3), sum, high, n(kind::REF, 1), n(kind::PREV, 1), high, since];
        let exit = [Node::plain(kind::ANY)];
        let forest = Forest::of(&bytes_of(2, [&entry, &exit, &[], &[]])).unwrap();
        let names = ["fast".to_owned(), "slow".to_owned()];
        let words = Words { forest: &forest, names: &names };
        assert_eq!(words.whole(1), "(high + slow) 3 bars before > high 1 bar before");
        assert_eq!(words.whole(0), "((high + slow) 3 bars before > high 1 bar before) and bars since entry >= 5");
        assert_eq!(words.way(&[0, 1, 2]), "#0 all of 2 › #1 > › #2 3 bars before");
        assert_eq!((words.whole(9), Words { forest: &forest, names: &[] }.label(5)), ("never".into(), "slot 1".into()));
    }

    #[test]
    fn numbers_read_back() {
        for x in [0.0, -0.0, 1.0, 0.1, -2.5e-7, 1e300, f64::MAX, 5e-324, 123456789.0, 1e16] {
            assert_eq!(number(x).parse::<f64>().unwrap().to_bits(), x.to_bits(), "{}", number(x));
        }
        assert_eq!((number(14.0), number(0.5), number(-0.0)), ("14".into(), "0.5".into(), "-0".into()));
    }
}
