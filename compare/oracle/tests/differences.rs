//! Each point of docs/DIFFERENCES.md, shown on the Rust text: `cargo test --release --offline`.

use oracle::answers::{leaf_line, metrics_line, rule_line, Runs};
use oracle::data::Candle;
use oracle::engine::reach::{level_fill, Run, Waits};
use oracle::engine::run_with_capital;
use oracle::lists;
use oracle::spec::{Condition, Operand, OperandExpr, Sizing};
use oracle::table::{nodes_of, Table};
use oracle::words::{hex_of_bytes, Line};
use oracle::{answers::bare_settings, spec_of, Reading, Settings};

/// The answers to one run of the list of differences, by document 01 and by the text.
fn both_readings(number: usize) -> (Vec<String>, Vec<String>) {
    let lines = lists::list("differences", 0).expect("the list is there");
    let runs: Vec<&[String]> = lines.split_inclusive(|line| line == "F").collect();
    let answers = |reading: Reading| {
        let mut answers = Runs::new(reading);
        runs[number - 1].iter().filter_map(|line| answers.line(line)).collect()
    };
    (answers(Reading::Paper), answers(Reading::Rust))
}

/// The reasons of the trades that a run closed, in order.
fn reasons(answers: &[String]) -> Vec<u64> {
    let words = |line: &String| -> Vec<u64> {
        line.split(' ')
            .map(|word| u64::from_str_radix(word, 16).expect("a word"))
            .collect()
    };
    // After a point or nine figures: the text's eight words, and two more by the other reading.
    let closed = |words: Vec<u64>| match words.len() {
        10 | 12 => Some(words[9]),
        17 | 19 => Some(words[16]),
        _ => None,
    };
    answers.iter().map(words).filter_map(closed).collect()
}

#[test]
fn an_absent_short_exit_is_the_exit_rule_in_the_text() {
    let (paper, rust) = both_readings(1);
    assert_eq!((reasons(&paper), reasons(&rust)), (vec![6], vec![1]));
}

#[test]
fn a_working_exit_is_decided_again_in_the_text() {
    let (paper, rust) = both_readings(2);
    assert_eq!((reasons(&paper), reasons(&rust)), (vec![1], vec![6]));
}

#[test]
fn an_entry_of_at_most_eps_is_booked_by_the_text() {
    let (paper, rust) = both_readings(3);
    let equity = |x: f64| Line::new().word(60).float(x).text();
    assert_eq!((&paper[1], &rust[1]), (&equity(10_000.0), &equity(10_010.0)));
}

#[test]
fn the_last_fee_is_missing_from_the_figures_of_the_text() {
    let (paper, rust) = both_readings(6);
    let pnl = |answers: &[String]| answers[2][..16].to_string();
    let word = |x: f64| Line::new().float(x).text();
    assert_eq!((pnl(&paper), pnl(&rust)), (word(-10.0), word(-5.0)));
    assert_eq!(paper[2][17 * 8..17 * 17 - 1], rust[2][17 * 8..]);
}

#[test]
fn the_text_has_no_lots() {
    let (paper, rust) = both_readings(7);
    let qty = |answers: &[String]| answers[2].split(' ').nth(9 + 4).map(str::to_string);
    let word = |x: f64| Some(Line::new().float(x).text());
    assert_eq!((qty(&paper), qty(&rust)), (word(48.0), word(50.0)));
}

/// The stop's price is within the limit on a bar whose low is over its open and over the limit.
#[test]
fn a_stop_limit_wants_the_low_within_the_limit_in_the_text() {
    let (paper, rust) = both_readings(8);
    let equity = |x: f64| Line::new().word(60).float(x).text();
    assert_eq!((&paper[1], &rust[1]), (&equity(10_050.0), &equity(10_000.0)));
    assert_eq!((reasons(&paper), reasons(&rust)), (vec![6], vec![]));
}

/// A stop-limit whose stop and limit are zeros of unlike sign: by request 1 it fills at the stop's, whichever that is. No run shows it, as
/// an entry at a price of 0 sizes to nothing. Rust leaves open which of the two its `min` and `max` give.
#[test]
fn of_two_equal_zeros_the_text_does_not_always_fill_at_the_stop() {
    let bar = |open: f64| Candle {
        time: 0,
        open,
        high: 1.0,
        low: -1.0,
        close: 0.0,
        volume: 0.0,
    };
    let sign = |side: u64, stop: f64, reading: Reading| {
        let waits = Waits {
            kind: 3,
            level: stop,
            limit: -stop,
        };
        let open = if side == 0 { -1.0 } else { 1.0 };
        let price = level_fill(side, waits, &bar(open), reading).expect("the bar reaches it");
        assert_eq!(price, 0.0);
        price.is_sign_negative()
    };
    for side in [0, 1] {
        let signs = |reading| [0.0, -0.0].map(|stop| sign(side, stop, reading));
        assert_eq!(signs(Reading::Paper), [false, true]);
        assert_ne!(signs(Reading::Rust), [false, true]);
    }
}

#[test]
fn a_sum_of_nothing_is_minus_zero_in_the_text() {
    let loss = Line::new()
        .word(0)
        .word(0)
        .floats(&[10.0, 9.0, 1.0, -1.0, -10.0])
        .word(1);
    let line = format!("M {} {}", Line::new().float(100.0).word(0).word(1).text(), loss.text());
    let profit_factor = |reading| metrics_line(&line, reading)[17 * 7..17 * 7 + 16].to_string();
    assert_eq!(profit_factor(Reading::Paper), "0000000000000000");
    assert_eq!(profit_factor(Reading::Rust), "8000000000000000");
    let (paper, rust) = both_readings(4);
    assert_eq!(paper[0], rust[0]);
    assert_ne!(paper[2], rust[2]);
}

/// A long from 5 with a stop of 100%: the level is +0.0, the bar opens at −0.0, and the fill is the lesser of the two. Here it is the level; builds
/// of the text give either, as Rust leaves it open.
#[test]
fn a_min_of_two_zeros_is_either_in_the_text() {
    let stop = Line::new()
        .word(7)
        .optional(Some(100.0))
        .optional(None)
        .optional(None)
        .optional(None)
        .optional(None);
    let bar = stop.word(0).word(0).floats(&[-0.0, 1.0, -1.0, 0.0, 0.0]);
    let line = bar.floats(&[5.0, 5.0]).word(1).text();
    let filled_at = |zero: f64| leaf_line(&line) == Line::new().word(2).float(zero).text();
    assert!(filled_at(0.0) || filled_at(-0.0));
}

#[test]
fn funding_that_is_not_supplied_is_refused_by_the_text() {
    let (paper, rust) = both_readings(5);
    assert_eq!(paper[0], Line::new().word(0).float(10_000.0).text());
    assert!(rust[0].starts_with("refused InvalidSpec"));
}

#[test]
fn a_run_of_no_bars_is_refused_by_the_batch_calls_and_finishes_bar_by_bar() {
    let never = || Some(Condition::Any(Vec::new()));
    let table = Table {
        slots: 0,
        trees: [never(), never(), None, None],
    };
    let spec = spec_of(&bare_settings(), &table, Reading::Rust);
    assert!(run_with_capital(&spec, &[], 100.0).is_err());
    let report = Run::new(spec, 100.0, 0.0, Reading::Rust)
        .expect("a good spec")
        .finish()
        .0;
    assert_eq!((report.metrics.num_trades, report.equity.len()), (0, 0));
}

fn no_rows(table: &Table) -> String {
    let state = Line::new().word(0).float(0.0).entry_bar(None).word(0);
    format!("{} {}", hex_of_bytes(&table.bytes()), state.text())
}

/// Refusals 4, 8 and 9 name sizes that the text does not know: it answers.
#[test]
fn larger_tables_are_answered_by_the_text() {
    let deep = (0..32).fold(Condition::All(Vec::new()), |inner, _| Condition::Not(Box::new(inner)));
    let wide = Condition::All(vec![Condition::All(Vec::new()); 300]);
    let close = Operand::Expr(Box::new(OperandExpr::Price(oracle::spec::PriceField::Close)));
    let far = Condition::Not(Box::new(Condition::Rising((close, 4_096))));
    for tree in [deep, wide, far] {
        assert!(nodes_of(&tree).len() >= 16);
        let table = Table {
            slots: 65,
            trees: [Some(tree.clone()), Some(tree), None, None],
        };
        assert!(rule_line(&no_rows(&table)).starts_with("0000000000000001 0000000000000001"));
    }
}

/// Refusals 11 and 12 name numbers that the text takes.
#[test]
fn numbers_that_are_not_finite_and_long_lookbacks_are_taken_by_the_text() {
    let always = || Some(Condition::All(Vec::new()));
    let table = Table {
        slots: 0,
        trees: [always(), always(), None, None],
    };
    let settings = Settings {
        capital: f64::NAN,
        sizing: Sizing::VolTarget {
            target_vol: f64::INFINITY,
            lookback: 4_096,
        },
        depth: 4_097,
        ..bare_settings()
    };
    let mut runs = Runs::new(Reading::Rust);
    runs.line(&format!("R {}", Line::new().settings(&settings).text()));
    runs.line(&format!("T {}", hex_of_bytes(&table.bytes())));
    let bar = Line::new()
        .word(0)
        .floats(&[f64::NAN; 5])
        .word(0)
        .word(0)
        .word(0)
        .word(0);
    let answer = runs.line(&format!("B {}", bar.text())).expect("a bar is answered");
    assert_eq!(answer, Line::new().word(0).float(f64::NAN).text());
}
