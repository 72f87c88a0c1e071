//! `driver extremes SEED COUNT`: tables of version 2, with Highest and Lowest, which the text has not.
//!
//! Each is checked, its rules are asked over rows of many lengths and its steps run over them, against a model written from
//! request 8; a damaged copy must be refused as the model says. A breakout rule is also written with a Prev for each bar, as a table
//! of version 1, and asked of the text itself.

mod meaning;
pub mod trees;

use oracle::lists::dice::Dice;
use oracle::lists::runs::Bar;
use oracle::registry::slot_name;
use oracle::rules::{eval_condition, BarRow, RuleState};
use oracle::table::Table;
use yshturpa::calls;

use crate::case;
use crate::model::steps::{ill_formed, steps};
use crate::model::{machine, table::checked};
use crate::ours::translated;
use crate::progress::Progress;
use crate::records::{self, Position};
use meaning::Rows;
use trees::{table, Condition, Grove, Operand};

/// What differs.
type Outcome = Result<(), String>;

const FLAT: Position = Position {
    qty: 0,
    entered: 0,
    entry_bar: 0,
    bars_seen: 1,
};

fn same<T: PartialEq + std::fmt::Debug>(what: &str, ours: T, model: T) -> Outcome {
    if ours == model {
        return Ok(());
    }
    Err(format!("{what}: ours {ours:?}, the model's {model:?}"))
}

fn check(bytes: &[u8]) -> Result<(u64, u64), u64> {
    let (mut nodes, mut rows) = (0, 0);
    match calls::check(bytes, &mut nodes, &mut rows) {
        0 => Ok((nodes, rows)),
        refused => Err(refused),
    }
}

fn rule(bytes: &[u8], tree: u64, rows: &[u64]) -> Result<bool, u64> {
    let mut answer = u64::MAX;
    match calls::rule(bytes, tree, rows, FLAT.words(), &mut answer) {
        0 => Ok(answer == 1),
        refused => Err(refused),
    }
}

/// What the prices and slots of bars are: often equal; below and above zero, with zeros of both signs; or all that a kept row may hold.
#[derive(Clone, Copy, PartialEq)]
enum Sort {
    Prices,
    AroundZero,
    Any,
}

const ANY: [f64; 9] = [
    f64::NEG_INFINITY,
    -1.0,
    -5e-324,
    -0.0,
    0.0,
    5e-324,
    1.0,
    f64::INFINITY,
    f64::NAN,
];

fn near(dice: &mut Dice, sort: Sort) -> f64 {
    match sort {
        Sort::Prices => 95.0 + dice.below(20) as f64 / 2.0,
        Sort::AroundZero => dice.pick(&[-1.0, -0.5, -0.0, -0.0, 0.0, 0.0, 0.5, 1.0]),
        Sort::Any => dice.pick(&ANY),
    }
}

/// Bars of such prices and slots, and a slot now and then absent.
fn bars(dice: &mut Dice, slots: u8, count: u64, sort: Sort) -> Vec<Bar> {
    let mut bar = || {
        let near = |dice: &mut Dice| near(dice, sort);
        let mut candle = dice.candle();
        (candle.open, candle.high) = (near(dice), near(dice));
        (candle.low, candle.close, candle.volume) = (near(dice), near(dice), near(dice));
        let present = dice.pick(&[100, 100, 97]);
        let slot = |_| {
            let x = near(dice);
            dice.maybe(present, x)
        };
        Bar {
            candle,
            slots: (0..slots).map(slot).collect(),
            funding: None,
        }
    };
    (0..count).map(|_| bar()).collect()
}

fn words(bars: &[Bar]) -> Vec<u64> {
    bars.iter().flat_map(case::row_words).collect()
}

/// The rules of an accepted table over the rows.
fn ask(bytes: &[u8], depth: u64, trees: [&Condition; 2], rows: &[u64]) -> Outcome {
    let slots = u64::from(bytes[3]);
    let width = records::row_words(slots as usize);
    let all = Rows { words: rows, width };
    for (number, tree) in trees.into_iter().enumerate() {
        let means = all.holds(tree, all.newest());
        same("the rule", rule(bytes, number as u64, rows), Ok(means))?;
        let list = translated(bytes, number as u64).map_err(|refusal| format!("the steps: {refusal:?}"))?;
        same("a step that is not well formed", None, ill_formed(&list, slots, depth))?;
        let (mut answer, mut visits) = (u64::MAX, u64::MAX);
        let called = calls::run(&list, rows, slots, depth, FLAT.words(), &mut answer, &mut visits);
        same("the call of the steps", called, 0)?;
        same("the steps", answer, means.into())?;
        same("the visits", visits, machine::run(&list, rows, (slots, depth), FLAT).1)?;
        let most: u64 = steps(&list).map(|step| step.weight()).sum();
        if visits > most {
            return Err(format!("{visits} visits, above {most}"));
        }
    }
    Ok(())
}

/// The slots, and the trees of an entry and an exit.
fn some_trees(dice: &mut Dice) -> (u8, Condition, Condition) {
    let slots = dice.below(4) as u8;
    let back = dice.pick(&[2, 5, 20, 60]);
    let grove = Grove { slots, back };
    (slots, grove.condition(dice, 2), grove.condition(dice, 1))
}

/// A table of two random trees, with so many rows.
pub fn some_table_and_rows(dice: &mut Dice, count: u64) -> (Vec<u8>, Vec<u64>) {
    let (slots, entry, exit) = some_trees(dice);
    (
        table(2, slots, [&entry, &exit]),
        words(&bars(dice, slots, count, Sort::Prices)),
    )
}

/// A table of two random trees: its check, its rules, and a damaged copy.
fn random(dice: &mut Dice) -> Outcome {
    let (slots, entry, exit) = some_trees(dice);
    let bytes = table(2, slots, [&entry, &exit]);
    let answer = checked(&bytes);
    same("the check", check(&bytes), answer)?;
    if let Ok((_, depth)) = answer {
        for count in [0, 1, depth - 1, depth, depth + dice.below(30)] {
            let sort = dice.pick(&[Sort::Prices, Sort::Prices, Sort::AroundZero, Sort::Any]);
            let rows = words(&bars(dice, slots, count, sort));
            ask(&bytes, depth, [&entry, &exit], &rows)?;
        }
    }
    let mut damaged = bytes;
    let node = 16 + 16 * dice.below(damaged.len() as u64 / 16 - 1) as usize;
    match dice.below(5) {
        0 => damaged[4] = dice.below(4) as u8,
        1 => damaged[node] = dice.below(33) as u8,
        2 => damaged[node + 4..node + 8].copy_from_slice(&dice.pick(&[0u32, 1, 4_095, 4_096]).to_le_bytes()),
        3 => damaged[node] = dice.pick(&[9, 10]),
        _ => damaged[node + dice.below(16) as usize] = dice.below(256) as u8,
    }
    same("the check of a damaged table", check(&damaged), checked(&damaged))
}

fn history(bars: &[Bar]) -> Vec<BarRow> {
    let row = |bar: &Bar| {
        let slots = bar.slots.iter().enumerate();
        let values = slots.filter_map(|(k, slot)| slot.map(|x| (slot_name(k).as_str().into(), x)));
        BarRow {
            candle: bar.candle,
            values: values.collect(),
        }
    };
    bars.iter().map(row).collect()
}

/// A number above every one of the n before it, or below: with one node, and with a Prev for each.
fn breakout(dice: &mut Dice) -> Outcome {
    let slots = dice.below(3) as u8;
    let n = dice.between(2, 26) as u32;
    let grove = Grove { slots, back: 2 };
    let (x, over) = (grove.series(dice), grove.series(dice));
    let (kind, extreme) = dice.pick(&[(16, 9), (18, 9), (17, 10), (19, 10)]);
    let later = dice.below(3) as u32;
    let one = Operand::Prev(Box::new(Operand::Extreme(extreme, Box::new(over.clone()), n)), later);
    let now = Condition::Compare(kind, x.clone(), one);
    let each = |back| Condition::Compare(kind, x.clone(), Operand::Prev(Box::new(over.clone()), back));
    let before = Condition::All((later..later + n).map(each).collect());
    let (new, old) = (table(2, slots, [&now, &now]), table(1, slots, [&before, &before]));
    let text = Table::of(&old).trees[0].clone().expect("an entry");
    // a NaN is passed over by Highest, and is no close that a bar has
    let sort = dice.pick(&[Sort::Prices, Sort::Prices, Sort::AroundZero]);
    let bars = bars(dice, slots, (later + n + 6).into(), sort);
    let history = history(&bars);
    for count in 0..=bars.len() {
        let rows = words(&bars[..count]);
        let answer = rule(&new, 0, &rows);
        same("one node and a Prev for each bar", answer, rule(&old, 0, &rows))?;
        let flat = RuleState {
            in_position: false,
            bars_since_entry: None,
        };
        let theirs = count > 0 && eval_condition(&text, &history[..count], count - 1, flat);
        same("one node and the text", answer, Ok(theirs))?;
    }
    Ok(())
}

pub fn extremes(seed: u64, count: u64) -> bool {
    let dice = &mut Dice::new(seed);
    let mut progress = Progress::new("extremes", count);
    for number in 0..count {
        let outcome = if number % 4 == 0 { breakout(dice) } else { random(dice) };
        if let Err(what) = outcome {
            println!("table {number}: {what}");
            println!("extremes: seed {seed}, {number} compared, 1 differs");
            return false;
        }
        progress.at(number, String::new);
    }
    println!("extremes: seed {seed}, {count} compared, none differs");
    true
}
