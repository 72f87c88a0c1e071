//! Repeatable chance, accepted tables of every sort, and a folder for each test.
#![allow(dead_code)]

pub mod browser;

use std::ffi::OsString;
use std::path::PathBuf;

pub use dice::Dice;
use ysh::table::{bytes_of, Node};
use yshturpa::layout::kind;

/// A random table; most are accepted. Slots may be unread, constants are any finite floats.
pub fn table(dice: &mut Dice) -> Vec<u8> {
    let slots = dice.pick(&[0, 1, 2, 3, 9, 11, 64]);
    let left = dice.pick(&[1, 4, 10, 40, 120]);
    let mut tree = |there: bool| {
        let mut nodes = Vec::new();
        if there {
            condition(dice, slots, left, 1, &mut nodes);
        }
        nodes
    };
    let (entry, exit) = (tree(true), tree(true));
    let (short_entry, short_exit) = (tree(left % 4 == 0), tree(left > 4));
    bytes_of(slots, [&entry, &exit, &short_entry, &short_exit])
}

fn condition(dice: &mut Dice, slots: usize, left: usize, level: usize, nodes: &mut Vec<Node>) {
    let branch = nodes.len() < left && level < 28 && dice.percent(50);
    let pick = if branch {
        dice.pick(&[27, 28, 29])
    } else {
        dice.pick(&[16, 17, 18, 19, 20, 21, 22, 23, 24, 25, 26, 30, 31])
    };
    let mut node = Node::plain(pick);
    match pick {
        kind::ALL | kind::ANY => node.children = dice.below(4) as u16,
        kind::RISING | kind::FALLING => node.n = bars(dice),
        kind::IN_POSITION => node.selector = dice.below(2) as u8,
        kind::BARS_SINCE_ENTRY => (node.selector, node.n) = (dice.below(5) as u8, dice.bits() as u32),
        _ => {}
    }
    nodes.push(node);
    for _ in 0..node.arity() {
        match branch {
            true => condition(dice, slots, left, level + 1, nodes),
            false => operand(dice, slots, left, level + 1, nodes),
        }
    }
}

fn operand(dice: &mut Dice, slots: usize, left: usize, level: usize, nodes: &mut Vec<Node>) {
    let branch = nodes.len() < left && level < 30 && dice.percent(40);
    let leaf = if slots > 0 { dice.pick(&[1, 2, 3]) } else { dice.pick(&[1, 3]) };
    let mut node = Node::plain(if branch { dice.pick(&[4, 4, 5, 6, 7, 8]) } else { leaf });
    match node.kind {
        kind::CONST => node = Node::constant(finite(dice)),
        kind::REF => node.n = dice.below(slots) as u32,
        kind::PRICE => node.selector = dice.below(7) as u8,
        kind::PREV => node.n = bars(dice),
        _ => {}
    }
    nodes.push(node);
    (0..node.arity()).for_each(|_| operand(dice, slots, left, level + 1, nodes));
}

fn bars(dice: &mut Dice) -> u32 {
    match dice.percent(2) {
        true => dice.below(4096) as u32,
        false => dice.below(30) as u32,
    }
}

fn finite(dice: &mut Dice) -> f64 {
    match dice.below(4) {
        0 => dice.pick(&[0.0, -0.0, 1.0, 0.1, 5e-324, f64::MAX, f64::MIN_POSITIVE, 1e16, 1e-5, -1e22]),
        1 => dice.below(1000) as f64 / 8.0,
        _ => Some(f64::from_bits(dice.bits())).filter(|x| x.is_finite()).unwrap_or(2.0),
    }
}

/// An empty folder that is this test's alone.
pub fn folder(name: &str) -> PathBuf {
    let path = PathBuf::from(env!("CARGO_TARGET_TMPDIR")).join(name);
    let _ = std::fs::remove_dir_all(&path);
    std::fs::create_dir_all(&path).unwrap();
    path
}

/// What `ysh` answers: its status, standard output and standard error.
pub fn ysh(arguments: &[&str]) -> (u8, String, String) {
    let (mut out, mut err) = (Vec::new(), Vec::new());
    let all = std::iter::once("ysh").chain(arguments.iter().copied()).map(OsString::from);
    let status = ysh::run(all, &mut out, &mut err);
    (status, String::from_utf8(out).unwrap(), String::from_utf8(err).unwrap())
}

pub const STRATEGY: &str = r#"{
  "symbol": "x", "timeframe": "1m",
  "indicators": {"slow": {"type": "Ema", "params": [26]}, "fast": {"type": "Ema", "params": [12]}},
  "entry": {"all": [{"cross_above": ["fast", "slow"]}, {"gt": [{"price": "close"}, {"prev": [{"price": "high"}, 14]}]}]},
  "exit": {"not": {"rising": [{"price": "close"}, 3]}},
  "sizing": {"type": "fixed_qty", "qty": 1},
  "warmup": 26
}"#;
