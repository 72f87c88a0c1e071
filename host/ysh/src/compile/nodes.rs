//! The nodes of conditions and operands.

use yshturpa::layout::kind;

use crate::strategy::spec::{Bars, Condition, Expr, Operand, PriceField};
use crate::table::Node;

/// The nodes so far, and where each comes from.
pub struct Found<'a> {
    names: &'a [String],
    pub nodes: Vec<Node>,
    pub paths: Vec<String>,
}

impl Found<'_> {
    pub fn new(names: &[String]) -> Found<'_> {
        Found { names, nodes: Vec::new(), paths: Vec::new() }
    }

    fn put(&mut self, node: Node, path: String) {
        self.nodes.push(node);
        self.paths.push(path);
    }

    pub fn condition(&mut self, condition: &Condition, path: String) {
        let (kind, name) = kind_of(condition);
        let inner = format!("{path}.{name}");
        let plain = Node::plain(kind);
        match condition {
            Condition::Gt(ab) | Condition::Lt(ab) | Condition::Ge(ab) | Condition::Le(ab) => {
                self.two(plain, path, &inner, ab)
            }
            Condition::Eq(ab) | Condition::Ne(ab) => self.two(plain, path, &inner, ab),
            Condition::CrossAbove(ab) | Condition::CrossBelow(ab) => self.two(plain, path, &inner, ab),
            Condition::Between((a, low, high)) => {
                self.put(plain, path);
                for (place, operand) in [a, low, high].into_iter().enumerate() {
                    self.operand(operand, format!("{inner}[{place}]"));
                }
            }
            Condition::Rising((a, n)) | Condition::Falling((a, n)) => {
                self.put(Node { n: *n, ..plain }, path);
                self.operand(a, format!("{inner}[0]"));
            }
            Condition::All(list) | Condition::Any(list) => {
                let children = u16::try_from(list.len()).unwrap_or(u16::MAX);
                self.put(Node { children, ..plain }, path);
                for (place, child) in list.iter().enumerate() {
                    self.condition(child, format!("{inner}[{place}]"));
                }
            }
            Condition::Not(child) => {
                self.put(plain, path);
                self.condition(child, inner);
            }
            Condition::InPosition(held) => self.put(Node { selector: (*held).into(), ..plain }, path),
            Condition::BarsSinceEntry(bars) => {
                let (selector, n) = since(*bars);
                self.put(Node { selector, n, ..plain }, path);
            }
        }
    }

    fn operand(&mut self, operand: &Operand, path: String) {
        let expr = match operand {
            Operand::Const(x) => return self.put(Node::constant(*x), path),
            Operand::Ref(name) => {
                let slot =
                    self.names.iter().position(|known| known == name).expect("every name that is read has a slot");
                return self.put(Node { n: slot as u32, ..Node::plain(kind::REF) }, path);
            }
            Operand::Expr(expr) => expr,
        };
        match expr.as_ref() {
            Expr::Price(field) => self.put(Node { selector: selector_of(*field), ..Node::plain(kind::PRICE) }, path),
            Expr::Prev((a, n)) => self.over(kind::PREV, "prev", path, a, *n),
            Expr::Highest((a, n)) => self.over(kind::HIGHEST, "highest", path, a, *n),
            Expr::Lowest((a, n)) => self.over(kind::LOWEST, "lowest", path, a, *n),
            Expr::Add(ab) => self.arithmetic(kind::ADD, "add", path, ab),
            Expr::Sub(ab) => self.arithmetic(kind::SUB, "sub", path, ab),
            Expr::Mul(ab) => self.arithmetic(kind::MUL, "mul", path, ab),
            Expr::Div(ab) => self.arithmetic(kind::DIV, "div", path, ab),
        }
    }

    fn over(&mut self, kind: u8, name: &str, path: String, a: &Operand, n: u32) {
        let inner = format!("{path}.{name}[0]");
        self.put(Node { n, ..Node::plain(kind) }, path);
        self.operand(a, inner);
    }

    fn arithmetic(&mut self, kind: u8, name: &str, path: String, ab: &(Operand, Operand)) {
        let inner = format!("{path}.{name}");
        self.two(Node::plain(kind), path, &inner, ab);
    }

    fn two(&mut self, node: Node, path: String, inner: &str, (a, b): &(Operand, Operand)) {
        self.put(node, path);
        self.operand(a, format!("{inner}[0]"));
        self.operand(b, format!("{inner}[1]"));
    }
}

/// The selector and the number of a comparison with the bars since the entry.
fn since(bars: Bars) -> (u8, u32) {
    match bars {
        Bars::Gt(n) => (0, n),
        Bars::Lt(n) => (1, n),
        Bars::Ge(n) => (2, n),
        Bars::Le(n) => (3, n),
        Bars::Eq(n) => (4, n),
    }
}

fn selector_of(field: PriceField) -> u8 {
    PriceField::ALL.iter().position(|known| *known == field).expect("every price is in the list") as u8
}

/// A condition's kind, and its name in a document.
fn kind_of(condition: &Condition) -> (u8, &'static str) {
    match condition {
        Condition::Gt(_) => (kind::GT, "gt"),
        Condition::Lt(_) => (kind::LT, "lt"),
        Condition::Ge(_) => (kind::GE, "ge"),
        Condition::Le(_) => (kind::LE, "le"),
        Condition::Eq(_) => (kind::EQ, "eq"),
        Condition::Ne(_) => (kind::NE, "ne"),
        Condition::CrossAbove(_) => (kind::CROSS_ABOVE, "cross_above"),
        Condition::CrossBelow(_) => (kind::CROSS_BELOW, "cross_below"),
        Condition::Between(_) => (kind::BETWEEN, "between"),
        Condition::Rising(_) => (kind::RISING, "rising"),
        Condition::Falling(_) => (kind::FALLING, "falling"),
        Condition::All(_) => (kind::ALL, "all"),
        Condition::Any(_) => (kind::ANY, "any"),
        Condition::Not(_) => (kind::NOT, "not"),
        Condition::InPosition(_) => (kind::IN_POSITION, "in_position"),
        Condition::BarsSinceEntry(_) => (kind::BARS_SINCE_ENTRY, "bars_since_entry"),
    }
}

/// The names that a condition reads, in the document's order.
pub fn names(condition: &Condition) -> Vec<&str> {
    let mut found = Vec::new();
    names_below(condition, &mut found);
    found
}

fn names_below<'a>(condition: &'a Condition, found: &mut Vec<&'a str>) {
    match condition {
        Condition::Gt((a, b)) | Condition::Lt((a, b)) | Condition::Ge((a, b)) | Condition::Le((a, b)) => {
            names_of([a, b], found)
        }
        Condition::Eq((a, b)) | Condition::Ne((a, b)) => names_of([a, b], found),
        Condition::CrossAbove((a, b)) | Condition::CrossBelow((a, b)) => names_of([a, b], found),
        Condition::Between((a, low, high)) => names_of([a, low, high], found),
        Condition::Rising((a, _)) | Condition::Falling((a, _)) => names_of([a], found),
        Condition::All(list) | Condition::Any(list) => list.iter().for_each(|child| names_below(child, found)),
        Condition::Not(child) => names_below(child, found),
        Condition::InPosition(_) | Condition::BarsSinceEntry(_) => {}
    }
}

fn names_of<'a, const N: usize>(operands: [&'a Operand; N], found: &mut Vec<&'a str>) {
    for operand in operands {
        match operand {
            Operand::Ref(name) => found.push(name),
            Operand::Const(_) => {}
            Operand::Expr(expr) => match expr.as_ref() {
                Expr::Price(_) => {}
                Expr::Prev((a, _)) | Expr::Highest((a, _)) | Expr::Lowest((a, _)) => names_of([a], found),
                Expr::Add((a, b)) | Expr::Sub((a, b)) | Expr::Mul((a, b)) | Expr::Div((a, b)) => {
                    names_of([a, b], found)
                }
            },
        }
    }
}
