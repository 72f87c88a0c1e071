//! From a table back to a strategy. Slots become names; nothing else of a table is lost or made up, so that one that is shown as a
//! strategy and compiled again is the same table.

use std::collections::BTreeMap;

use yshturpa::layout::kind;
use yshturpa::{EntryOrder, Tree};

use crate::settings_file::SettingsFile;
use crate::source::Source;
use crate::strategy::spec::{Bars, Condition, Costs, Execution, Expr, Indicator, Operand, OrderType, PriceField};
use crate::strategy::spec::{Risk, Sizing, Strategy, NEWEST};
use crate::table::Forest;

/// A table as a strategy: all that the settings beside it say, and a quantity of 0 where there are none.
pub fn strategy(source: &Source) -> Strategy {
    let names = if source.names.is_empty() { slot_names(source.forest.slots) } else { source.names.clone() };
    let tree = |tree| condition(&source.forest, tree, &names);
    let indicator = || Indicator { kind: "Slot".to_owned(), params: Vec::new(), feed: None };
    let declared = |name: &String| (name.split('.').next().unwrap_or(name).to_owned(), indicator());
    let settings = source.settings.as_ref();
    Strategy {
        spec_version: NEWEST,
        symbol: String::new(),
        ref_symbol: None,
        timeframe: String::new(),
        indicators: names.iter().map(declared).collect::<BTreeMap<_, _>>(),
        entry: tree(Tree::Entry).expect("an accepted table has an entry"),
        exit: tree(Tree::Exit).expect("an accepted table has an exit"),
        short_entry: tree(Tree::ShortEntry),
        short_exit: tree(Tree::ShortExit),
        sizing: settings.map_or(Sizing::FixedQty { qty: 0.0 }, |s| s.sizing),
        costs: settings.map_or(Costs::default(), costs),
        risk: settings.map_or(Risk::default(), risk),
        execution: settings.map_or(Execution::default(), execution),
        warmup: Some(settings.map_or(0, |s| s.warmup.try_into().unwrap_or(u32::MAX))),
    }
}

fn costs(settings: &SettingsFile) -> Costs {
    Costs {
        maker_bps: settings.maker_bps,
        taker_bps: settings.taker_bps,
        slippage: settings.slippage,
        funding: settings.funding,
    }
}

fn risk(settings: &SettingsFile) -> Risk {
    Risk {
        stop_loss_pct: settings.stop_loss_pct,
        take_profit_pct: settings.take_profit_pct,
        trailing_stop_pct: settings.trailing_stop_pct,
        max_leverage: settings.max_leverage,
        max_position_pct: settings.max_position_pct,
        liquidation: settings.liquidation,
    }
}

fn execution(settings: &SettingsFile) -> Execution {
    let (order_type, limit_offset_pct, stop_offset_pct) = match settings.entry_order {
        EntryOrder::Market => (OrderType::Market, None, None),
        EntryOrder::Limit { level_pct } => (OrderType::Limit, Some(level_pct), None),
        EntryOrder::Stop { level_pct } => (OrderType::Stop, None, Some(level_pct)),
        EntryOrder::StopLimit { stop_pct, limit_pct } => (OrderType::StopLimit, Some(limit_pct), Some(stop_pct)),
    };
    Execution {
        order_type,
        limit_offset_pct,
        stop_offset_pct,
        latency_bars: settings.delay.try_into().unwrap_or(u32::MAX),
        partial_fills: settings.partial_fills,
        max_participation: Some(settings.max_participation),
        ..Execution::default()
    }
}

/// The names of slots that have none of their own: `slot0`, or `slot00` where there are more than ten, so that their order is that of
/// their letters.
pub fn slot_names(slots: usize) -> Vec<String> {
    let width = if slots > 10 { 2 } else { 1 };
    (0..slots).map(|k| format!("slot{k:0width$}")).collect()
}

/// The condition of a tree, with these names for the slots; none where the tree is absent.
pub fn condition(forest: &Forest, tree: Tree, names: &[String]) -> Option<Condition> {
    let (_, root) = forest.roots.iter().find(|(there, _)| *there == tree)?;
    Some(Reader { forest, names }.condition(*root))
}

struct Reader<'a> {
    forest: &'a Forest,
    names: &'a [String],
}

impl Reader<'_> {
    fn condition(&self, node: usize) -> Condition {
        let it = &self.forest.nodes[node];
        let below = &self.forest.children[node];
        let two = || (self.operand(below[0]), self.operand(below[1]));
        let list = || below.iter().map(|&child| self.condition(child)).collect();
        match it.kind {
            kind::GT => Condition::Gt(two()),
            kind::LT => Condition::Lt(two()),
            kind::GE => Condition::Ge(two()),
            kind::LE => Condition::Le(two()),
            kind::EQ => Condition::Eq(two()),
            kind::NE => Condition::Ne(two()),
            kind::CROSS_ABOVE => Condition::CrossAbove(two()),
            kind::CROSS_BELOW => Condition::CrossBelow(two()),
            kind::BETWEEN => {
                Condition::Between((self.operand(below[0]), self.operand(below[1]), self.operand(below[2])))
            }
            kind::RISING => Condition::Rising((self.operand(below[0]), it.n)),
            kind::FALLING => Condition::Falling((self.operand(below[0]), it.n)),
            kind::ALL => Condition::All(list()),
            kind::ANY => Condition::Any(list()),
            kind::NOT => Condition::Not(Box::new(self.condition(below[0]))),
            kind::IN_POSITION => Condition::InPosition(it.selector != 0),
            _ => Condition::BarsSinceEntry(match it.selector {
                0 => Bars::Gt(it.n),
                1 => Bars::Lt(it.n),
                2 => Bars::Ge(it.n),
                3 => Bars::Le(it.n),
                _ => Bars::Eq(it.n),
            }),
        }
    }

    fn operand(&self, node: usize) -> Operand {
        let it = &self.forest.nodes[node];
        let below = &self.forest.children[node];
        let two = || (self.operand(below[0]), self.operand(below[1]));
        let expr = match it.kind {
            kind::CONST => return Operand::Const(f64::from_bits(it.constant)),
            kind::REF => return Operand::Ref(self.names[it.n as usize].clone()),
            kind::PRICE => Expr::Price(PriceField::ALL[usize::from(it.selector)]),
            kind::PREV => Expr::Prev((self.operand(below[0]), it.n)),
            kind::ADD => Expr::Add(two()),
            kind::SUB => Expr::Sub(two()),
            kind::MUL => Expr::Mul(two()),
            kind::HIGHEST => Expr::Highest((self.operand(below[0]), it.n)),
            kind::LOWEST => Expr::Lowest((self.operand(below[0]), it.n)),
            _ => Expr::Div(two()),
        };
        Operand::Expr(Box::new(expr))
    }
}
