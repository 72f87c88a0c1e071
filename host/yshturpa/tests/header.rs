//! The wrapper against include/yshturpa.h: every call is there, and every width, limit and number is the header's.

use std::collections::BTreeMap;

use yshturpa::layout::{self, kind, room, setting, state, status, stream};

fn header() -> String {
    let text = std::fs::read_to_string(concat!(env!("CARGO_MANIFEST_DIR"), "/../../include/yshturpa.h")).unwrap();
    let mut plain = String::new();
    for (place, part) in text.split("/*").enumerate() {
        plain.push_str(if place == 0 { part } else { part.split_once("*/").unwrap().1 });
    }
    plain
}

/// Every name that the header gives a number to: plain macros, and the cases of its enums.
fn numbers(header: &str) -> BTreeMap<String, u64> {
    let mut found = BTreeMap::new();
    for line in header.lines() {
        let words: Vec<&str> = line.split_whitespace().collect();
        if let ["#define", name, value] = words[..] {
            value.parse().map(|value| found.insert(name.to_owned(), value)).ok();
        }
    }
    for block in header.split("enum {").skip(1) {
        let mut next = 0;
        for case in block.split('}').next().unwrap().split(',').map(str::trim).filter(|case| !case.is_empty()) {
            let (name, value) = match case.split_once('=') {
                Some((name, value)) => (name.trim(), value.trim().parse().unwrap()),
                None => (case, next),
            };
            found.insert(name.to_owned(), value);
            next = value + 1;
        }
    }
    found
}

/// What the header declares: each call, with the types of its parameters.
fn declared(header: &str) -> BTreeMap<String, Vec<String>> {
    let (_, account) = header.split_once("#define YSH_ACCOUNT_PARAMETERS(a)").expect("an account's parameters");
    let (account, _) = account.split_once("#define").expect("what comes after");
    let account = account.replace('\\', " ");
    let mut found = BTreeMap::new();
    for part in header.split("\nuint64_t ysh_").skip(1) {
        let (name, rest) = part.split_once('(').expect("parameters");
        let (list, _) = rest.split_once(");").expect("their end");
        let accounts = |list: String, a: &str| list.replace(&format!("YSH_ACCOUNT_PARAMETERS({a})"), &account);
        let list = ["a", "b", "c", "d"].into_iter().fold(list.to_owned(), accounts);
        let types = list.split(',').map(str::trim).filter(|parameter| *parameter != "void");
        let of = |parameter: &str| parameter[..=parameter.rfind([' ', '*']).expect("a type")].trim().to_owned();
        found.insert(name.to_owned(), types.map(of).collect());
    }
    found
}

/// A parameter of the wrapper's list as C has it.
fn in_c(kind: &str) -> Vec<&'static str> {
    let (bytes, words, lent) =
        (["const uint8_t *", "size_t"], ["const uint64_t *", "size_t"], ["uint64_t *", "size_t"]);
    match kind {
        "&[u8]" => bytes.to_vec(),
        "&[u64]" => words.to_vec(),
        "&mut [u8]" => vec!["uint8_t *", "size_t"],
        "&mut [u64]" => lent.to_vec(),
        "&mut u64" => vec!["uint64_t *"],
        "u64" => vec!["uint64_t"],
        "PositionWords" => vec!["uint64_t"; 4],
        "[&[u8]; 4]" => [bytes; 4].concat(),
        "Account" => [bytes, words, bytes, bytes, lent, lent, lent, lent, lent].concat(),
        _ => panic!("{kind} is no kind of a parameter"),
    }
}

#[test]
fn every_call_is_declared_as_the_header_has_it() {
    let (_, list) = include_str!("../src/calls.rs").split_once("\ncalls! {").expect("the list of calls");
    let mut ours = BTreeMap::new();
    for part in list.split(" = ysh_").skip(1) {
        let (name, rest) = part.split_once('(').expect("parameters");
        let (parameters, _) = rest.split_once(");").expect("their end");
        let kinds = parameters.split(',').filter_map(|parameter| Some(parameter.split_once(':')?.1.trim()));
        ours.insert(name.to_owned(), kinds.flat_map(in_c).map(str::to_owned).collect::<Vec<_>>());
    }
    let header = declared(&header());
    assert!(header.len() >= 25, "{header:?}");
    assert_eq!(ours, header);
}

#[test]
fn every_number_is_the_headers() {
    let numbers = numbers(&header());
    let small = |values: &[(&'static str, usize)]| values.iter().map(|(n, v)| (*n, *v as u64)).collect::<Vec<_>>();
    let mut ours = small(&[
        ("SETTING_WORDS", layout::SETTING_WORDS),
        ("STATE_WORDS", layout::STATE_WORDS),
        ("POINT_WORDS", layout::POINT_WORDS),
        ("TRADE_WORDS", layout::TRADE_WORDS),
        ("METRIC_WORDS", layout::METRIC_WORDS),
        ("TOTAL_WORDS", layout::TOTAL_WORDS),
        ("BLOCK_WORDS", layout::BLOCK_WORDS),
        ("DIFFERENCE_WORDS", layout::DIFFERENCE_WORDS),
        ("STREAM_WORDS", layout::STREAM_WORDS),
        ("STATUS_WORDS", layout::STATUS_WORDS),
        ("STREAM_SLOTS", stream::SLOTS),
        ("STREAM_BARS", stream::BARS),
        ("STATUS_NUMBER", status::NUMBER),
        ("STATUS_PLACE", status::PLACE),
        ("STATUS_BAR", status::BAR),
        ("LINE_WORDS", layout::WHY_WORDS),
        ("MOST_LINES", layout::WHY_LINES),
        ("PLACE_WORDS", layout::WHY_LINES * layout::WHY_WORDS),
        ("POSITION_WORDS", layout::POSITION_WORDS),
        ("TABLE_BYTES", layout::TABLE_BYTES),
        ("MOST_SLOTS", layout::MOST_SLOTS),
        ("MOST_DEPTH", layout::MOST_DEPTH),
        ("MOST_REACH", layout::MOST_REACH),
        ("MOST_NODES", layout::MOST_NODES),
        ("MOST_NESTING", layout::MOST_NESTING),
        ("GIVEN", layout::GIVEN),
        ("SLOTS", setting::SLOTS),
        ("DEPTH", setting::DEPTH),
        ("LOOKBACK", setting::LOOKBACK),
        ("FUNDING", setting::FUNDING),
        ("STOP_LOSS", setting::STOP_LOSS),
        ("MAX_POSITION", setting::MAX_POSITION),
        ("PARTICIPATION", setting::PARTICIPATION),
        ("ENTRY_KIND", setting::ENTRY_KIND),
        ("LEVEL_PCT", setting::LEVEL_PCT),
        ("LIMIT_PCT", setting::LIMIT_PCT),
        ("MAKER_BPS", setting::MAKER_BPS),
        ("LOT", setting::LOT),
        ("BARS_SEEN", state::BARS_SEEN),
        ("ROWS_HELD", state::ROWS_HELD),
        ("EQUITY_POINTS", state::EQUITY_POINTS),
        ("TRADES", state::TRADES),
        ("ORDER_DELAY", state::ORDER_DELAY),
        ("ENTRY_BAR", state::ENTRY_BAR),
        ("QTY", state::QTY),
        ("EXTREME", state::EXTREME),
        ("LAST_CLOSE", state::LAST_CLOSE),
        ("ORDER_KIND", state::ORDER_KIND),
        ("ORDER_LEVEL", state::ORDER_LEVEL),
        ("ORDER_LIMIT", state::ORDER_LIMIT),
        ("OPEN_FUNDING", state::OPEN_FUNDING),
        ("OPEN_WORST", state::OPEN_WORST),
    ]);
    let rooms = [
        ("ROOM_ROWS", room::ROWS),
        ("ROOM_CLOSES", room::CLOSES),
        ("ROOM_BLOCKS", room::BLOCKS),
        ("ROOM_DIFFERENCES", room::DIFFERENCES),
        ("ROOM_STREAM", room::STREAM),
        ("ROOM_STATUS", room::STATUS),
        ("ROOM_SILENT", room::SILENT),
        ("ROOM_COUNTS", room::COUNTS),
    ];
    ours.extend(rooms.map(|(n, v)| (n, v.into())));
    let kinds = [
        ("CONST", kind::CONST),
        ("REF", kind::REF),
        ("PRICE", kind::PRICE),
        ("PREV", kind::PREV),
        ("DIV", kind::DIV),
        ("HIGHEST", kind::HIGHEST),
        ("LOWEST", kind::LOWEST),
        ("GT", kind::GT),
        ("NE", kind::NE),
        ("CROSS_ABOVE", kind::CROSS_ABOVE),
        ("CROSS_BELOW", kind::CROSS_BELOW),
        ("BETWEEN", kind::BETWEEN),
        ("RISING", kind::RISING),
        ("FALLING", kind::FALLING),
        ("ALL", kind::ALL),
        ("ANY", kind::ANY),
        ("NOT", kind::NOT),
        ("IN_POSITION", kind::IN_POSITION),
        ("BARS_SINCE_ENTRY", kind::BARS_SINCE_ENTRY),
    ];
    ours.extend(kinds.map(|(n, v)| (n, v.into())));
    for (name, value) in ours {
        assert_eq!(numbers.get(&format!("YSH_{name}")), Some(&value), "{name}");
    }
}

/// Of a row and a bar the header has functions of K; of a trade, the metrics and the state the last word's name.
#[test]
fn widths_that_the_header_says_otherwise() {
    let header = header();
    let (bar, row) = (layout::BAR_FIXED, layout::ROW_FIXED);
    assert!(header.contains(&format!("YSH_BAR_WORDS(slots) ({bar} + (slots))")));
    assert!(header.contains(&format!("YSH_ROW_WORDS(slots) ({row} + (slots))")));
    assert!(header.contains(&format!("YSH_STEP_BYTES(nodes) ({} * (nodes))", layout::STEP_ROOM)));
    let numbers = numbers(&header);
    assert_eq!(numbers["YSH_NUM_TRADES"] as usize + 1, layout::METRIC_WORDS);
    assert_eq!(numbers["YSH_TRADE_WORST"] as usize + 1, layout::TRADE_WORDS);
    assert_eq!(numbers["YSH_OPEN_WORST"] as usize + 1, layout::STATE_WORDS);
    assert_eq!(numbers["YSH_LOT"] as usize + 1, setting::NAMES.len());
    assert_eq!(numbers["YSH_REASON_END"], yshturpa::Reason::End as u64);
}

/// Every refusal that the header names has words here.
#[test]
fn every_refusal_has_words() {
    let numbers = numbers(&header());
    let refusals = numbers.iter().filter(|(name, _)| name.starts_with("YSH_REFUSED_"));
    for (name, &number) in refusals {
        let refusal = yshturpa::Refusal { number: number as u32, place: 0 };
        assert_ne!(refusal.meaning(), "a number that this wrapper does not know", "{name}");
    }
}
