//! Compile and show are inverse on every accepted table, up to names: as a strategy document, and as the readable rules.

mod common;

use std::fs;

use common::{folder, table, ysh, Dice, STRATEGY};
use ysh::compile::{rules, Choices};
use ysh::decompile::{condition, slot_names};
use ysh::strategy::spec::{Costs, Execution, Indicator, Risk, Sizing, Strategy};
use ysh::table::{bytes_of, Forest, Node, Words};
use yshturpa::layout::kind;
use yshturpa::Tree;

/// A table as a strategy with names for its slots, compiled again with those names in that order.
fn again(forest: &Forest) -> Vec<u8> {
    let names = slot_names(forest.slots);
    let tree = |tree| condition(forest, tree, &names);
    let indicator = || Indicator { kind: "Slot".into(), params: vec![], feed: None };
    let strategy = Strategy {
        spec_version: 1,
        symbol: String::new(),
        ref_symbol: None,
        timeframe: String::new(),
        indicators: names.iter().map(|name| (name.clone(), indicator())).collect(),
        entry: tree(Tree::Entry).unwrap(),
        exit: tree(Tree::Exit).unwrap(),
        short_entry: tree(Tree::ShortEntry),
        short_exit: tree(Tree::ShortExit),
        sizing: Sizing::FixedQty { qty: 1.0 },
        costs: Costs::default(),
        risk: Risk::default(),
        execution: Execution::default(),
        warmup: Some(0),
    };
    // By way of its text, as a file would be.
    let text = serde_json::to_string(&strategy).unwrap();
    let read = ysh::strategy::read(&text).unwrap().strategy;
    rules(&read, Choices { order: Some(&names), absent_short_exit: true }).unwrap().table
}

#[test]
fn a_table_shown_as_a_strategy_compiles_to_itself() {
    let mut dice = Dice(7);
    let mut accepted = 0;
    while accepted < 5000 {
        let table = table(&mut dice);
        if let Ok(forest) = Forest::of(&table) {
            accepted += 1;
            assert_eq!(again(&forest), table);
        }
    }
}

/// An accepted table with some of its prices and slots put below a Highest or a Lowest.
fn with_extremes(dice: &mut Dice) -> Vec<u8> {
    let forest = loop {
        if let Ok(forest) = Forest::of(&table(dice)) {
            break forest;
        }
    };
    let mut tree = |tree| {
        let mut nodes = Vec::new();
        for node in forest.tree_nodes(tree) {
            if matches!(node.kind, kind::PRICE | kind::REF) && dice.percent(30) {
                nodes.push(Node {
                    n: 1 + dice.below(40) as u32,
                    ..Node::plain(dice.pick(&[kind::HIGHEST, kind::LOWEST]))
                });
            }
            nodes.push(*node);
        }
        nodes
    };
    let [a, b, c, d] = Tree::ALL.map(&mut tree);
    bytes_of(forest.slots, [&a, &b, &c, &d])
}

/// A table of version 2 is one of JSON too, and the version is found by what is in it.
#[test]
fn highest_and_lowest_are_written_and_read() {
    let folder = folder("extremes");
    let [path, document, other] =
        ["table.rtb", "shown.json", "other.rtb"].map(|name| folder.join(name).to_str().unwrap().to_owned());
    let mut dice = Dice(13);
    let (mut second, mut accepted) = (0, 0);
    while accepted < 1000 {
        let table = with_extremes(&mut dice);
        let Ok(forest) = Forest::of(&table) else { continue };
        accepted += 1;
        second += usize::from(table[4] == 2);
        assert_eq!(again(&forest), table);
        if accepted % 50 == 0 {
            fs::write(&path, &table).unwrap();
            let (status, out, _) = ysh(&["show", &path]);
            assert_eq!((status, table_of(&out, forest.slots)), (0, table.clone()));
            let (status, out, _) = ysh(&["show", &path, "--json"]);
            assert_eq!(status, 0);
            fs::write(&document, out).unwrap();
            let (status, _, err) = ysh(&["compile", &document, "-o", &other, "--absent-short-exit"]);
            assert_eq!(status, 0, "{err}");
        }
    }
    assert!(second > 300, "{second}");
}

/// The nodes of the readable rules, from the labels in their lines alone.
fn nodes_of(lines: &[&str], names: &[String]) -> Vec<Node> {
    let start = lines[0].find("rule").unwrap();
    let words = lines[0].find("in words").unwrap();
    let labels: Vec<&str> =
        lines[1..].iter().map(|line| line.get(start..words.min(line.len())).unwrap_or("").trim_end()).collect();
    labels.iter().map(|label| node_of(label.trim_start(), names)).collect()
}

fn node_of(label: &str, names: &[String]) -> Node {
    const SIGNS: [(&str, u8); 14] = [
        ("+", kind::ADD),
        ("-", kind::SUB),
        ("*", kind::MUL),
        ("/", kind::DIV),
        (">", kind::GT),
        ("<", kind::LT),
        (">=", kind::GE),
        ("<=", kind::LE),
        ("=", kind::EQ),
        ("!=", kind::NE),
        ("crosses above", kind::CROSS_ABOVE),
        ("crosses below", kind::CROSS_BELOW),
        ("between", kind::BETWEEN),
        ("not", kind::NOT),
    ];
    const SINCE: [&str; 5] = [">", "<", ">=", "<=", "="];
    let plain = Node::plain;
    let parts: Vec<&str> = label.split(' ').collect();
    if let Some((_, kind)) = SIGNS.iter().find(|(sign, _)| *sign == label) {
        return plain(*kind);
    }
    if let Some(slot) = names.iter().position(|name| name == label) {
        return Node { n: slot as u32, ..plain(kind::REF) };
    }
    if let Some(selector) = (0..7).find(|&selector| Words::price(selector) == label) {
        return Node { selector, ..plain(kind::PRICE) };
    }
    let bars = |n: &str| n.replace(',', "").parse().unwrap();
    match parts[..] {
        [n, "bar" | "bars", "before"] => Node { n: bars(n), ..plain(kind::PREV) },
        ["highest", "over", n, _] => Node { n: bars(n), ..plain(kind::HIGHEST) },
        ["lowest", "over", n, _] => Node { n: bars(n), ..plain(kind::LOWEST) },
        ["rising", "over", n, _] => Node { n: bars(n), ..plain(kind::RISING) },
        ["falling", "over", n, _] => Node { n: bars(n), ..plain(kind::FALLING) },
        ["all", "of", n] => Node { children: n.parse().unwrap(), ..plain(kind::ALL) },
        ["any", "of", n] => Node { children: n.parse().unwrap(), ..plain(kind::ANY) },
        ["flat"] => plain(kind::IN_POSITION),
        ["in", "a", "position"] => Node { selector: 1, ..plain(kind::IN_POSITION) },
        ["bars", "since", "entry", compare, n] => {
            let selector = SINCE.iter().position(|known| *known == compare).unwrap() as u8;
            Node { selector, n: n.parse().unwrap(), ..plain(kind::BARS_SINCE_ENTRY) }
        }
        [number] => Node::constant(number.parse().unwrap()),
        _ => panic!("{label:?} is no node"),
    }
}

/// The table of what `ysh show` wrote.
fn table_of(shown: &str, slots: usize) -> Vec<u8> {
    let names: Vec<String> = (0..slots).map(|k| format!("slot {k}")).collect();
    let mut trees: Vec<Vec<Node>> = Vec::new();
    for tree in Tree::ALL {
        let mut part = shown.lines().skip_while(|line| !line.starts_with(&format!("{}:", tree.name()))).skip(1);
        let lines: Vec<&str> = part.by_ref().take_while(|line| !line.is_empty()).collect();
        trees.push(if lines.is_empty() { vec![] } else { nodes_of(&lines, &names) });
    }
    bytes_of(slots, [&trees[0], &trees[1], &trees[2], &trees[3]])
}

#[test]
fn the_readable_rules_hold_the_whole_table() {
    let folder = folder("readable");
    let path = folder.join("table.rtb");
    let file = path.to_str().unwrap();
    let mut dice = Dice(11);
    let mut accepted = 0;
    while accepted < 400 {
        let table = table(&mut dice);
        if let Ok(forest) = Forest::of(&table) {
            accepted += 1;
            fs::write(&path, &table).unwrap();
            let (status, shown, _) = ysh(&["show", file]);
            assert_eq!(status, 0);
            assert!(table_of(&shown, forest.slots) == table, "{shown}");
        }
    }
}

/// What a strategy may say beside its rules, of every kind. An offset that its order does not use is not kept.
fn settings(dice: &mut Dice) -> String {
    let mut x = || dice.below(4000) as f64 / 8.0 - 250.0;
    let sizings = [
        format!(r#"{{"type": "fixed_fraction", "fraction": {}}}"#, x()),
        format!(r#"{{"type": "fixed_cash", "cash": {}}}"#, x()),
        format!(r#"{{"type": "vol_target", "target_vol": {}, "lookback": 33}}"#, x()),
        format!(r#"{{"type": "risk_per_trade", "risk_pct": {}}}"#, x()),
    ];
    let slippages = [
        format!(r#"{{"type": "fixed_bps", "bps": {}}}"#, x()),
        format!(r#"{{"type": "volume_impact", "coef": {}}}"#, x()),
    ];
    let numbers = [x(), x(), x(), x(), x(), x(), x()];
    let [maker, taker, limit, stop, loss, trail, share] = numbers;
    let (sizing, slippage) = (dice.pick(&sizings), dice.pick(&slippages));
    let order = dice.pick(&["market", "limit", "stop", "stop_limit"]);
    let (funding, partial) = (dice.percent(50), dice.percent(50));
    format!(
        r#""sizing": {sizing},
        "costs": {{"maker_bps": {maker}, "taker_bps": {taker}, "slippage": {slippage}, "funding": {funding}}},
        "risk": {{"stop_loss_pct": {loss}, "trailing_stop_pct": {trail}}},
        "execution": {{"order_type": "{order}", "limit_offset_pct": {limit}, "stop_offset_pct": {stop}, "latency_bars": {},
            "partial_fills": {partial}, "max_participation": {share}}}"#,
        dice.below(5)
    )
}

/// A strategy compiled, shown from its table and the settings beside it, and compiled again: table, settings file and words are the
/// same ones.
#[test]
fn the_settings_too() {
    let folder = folder("inverse-settings");
    let at = |name: &str| folder.join(name).to_str().unwrap().to_owned();
    let mut dice = Dice(17);
    let compile = |document: &str, name: &str| {
        let (table, words) = (at(&format!("{name}.rtb")), at(&format!("{name}.words")));
        let (status, _, said) = ysh(&["compile", document, "-o", &table, "--words", &words]);
        assert_eq!(status, 0, "{said}");
        [table.clone(), format!("{table}.settings.json"), words].map(|path| fs::read(path).unwrap())
    };
    for _ in 0..200 {
        let own = r#""sizing": {"type": "fixed_qty", "qty": 1}"#;
        fs::write(at("a.json"), STRATEGY.replace(own, &settings(&mut dice))).unwrap();
        let first = compile(&at("a.json"), "a");
        let (status, shown, _) = ysh(&["show", "--json", &at("a.rtb")]);
        assert_eq!(status, 0);
        fs::write(at("b.json"), shown).unwrap();
        assert_eq!(compile(&at("b.json"), "b"), first);
    }
}

#[test]
fn by_the_program_too() {
    let folder = folder("inverse");
    let (path, document, back) = (folder.join("a.rtb"), folder.join("a.json"), folder.join("b.rtb"));
    let mut dice = Dice(13);
    let mut accepted = 0;
    while accepted < 200 {
        let table = table(&mut dice);
        let Ok(forest) = Forest::of(&table) else { continue };
        accepted += 1;
        fs::write(&path, &table).unwrap();
        let (status, shown, _) = ysh(&["show", "--json", path.to_str().unwrap()]);
        assert_eq!(status, 0);
        fs::write(&document, shown).unwrap();
        let slots = format!("--slots={}", slot_names(forest.slots).join(","));
        let mut arguments =
            vec!["compile", document.to_str().unwrap(), "-o", back.to_str().unwrap(), "--absent-short-exit"];
        if forest.slots > 0 {
            arguments.push(&slots);
        }
        let (status, _, said) = ysh(&arguments);
        assert_eq!(status, 0, "{said}");
        assert_eq!(fs::read(&back).unwrap(), table);
    }
}
