//! `driver stack SEED RUNS`, in a build with the feature `stack`: the most stack that each call takes over the driver's own cases, and over
//! tables and lists that are made to take much.

use oracle::lists::trees::{always, close, compare as test, negated, number, prev};
use oracle::spec::Condition;
use oracle::table::Table;
use yshturpa::calls::{self, accounts, Account};
use yshturpa::layout::{MOST_NODES, STEP_BYTES, WHY_LINES, WHY_WORDS};

use crate::accounts::accounts as four;
use crate::bench::setup::Size;
use crate::case::bar_words;
use crate::cases;
use crate::compare::compare;
use crate::differences::differences;
use crate::extremes::extremes;
use crate::figures::{metrics, roots};
use crate::guard::guard;
use crate::images::images;
use crate::ours::{translated, Ours};
use crate::painted::{self, uses};
use crate::questions::questions;
use crate::records;
use crate::stretches::stretches;
use crate::totals::totals;

/// Steps of the longest list that there is.
const MOST_STEPS: usize = 1_024;

/// Bars of a call over accounts.
const BARS: usize = 40;

/// Levels of a tree, operands counted too.
const MOST_NESTING: usize = 32;

/// The kind of a constant's step.
const CONSTANT: u8 = 1;

/// The longest list, which no table gives: each of its steps leaves a value, and none takes one.
fn longest_list() -> Vec<u8> {
    let mut step = [0; STEP_BYTES];
    step[0] = CONSTANT;
    step.repeat(MOST_STEPS)
}

/// A run, a step and a call over many bars with four of them.
fn longest_lists(seed: u64) {
    let case = (0..)
        .map(|number| cases::some_case(seed, number).0)
        .find(|case| case.bars.len() > 40);
    let case = case.expect("a case with bars");
    let mut run = Ours::new(&case, case.settings.depth).expect("an accepted case");
    run.lists = [(); 4].map(|()| longest_list());
    let bars: Vec<u64> = case.bars.iter().flat_map(bar_words).collect();
    let width = records::bar_words(case.table.slots);
    let (single, many) = bars.split_at(20 * width);
    single
        .chunks(width)
        .for_each(|bar| run.step(bar).expect("a bar in the domain"));
    let (_, answer) = run.steps(many);
    answer.expect("bars in the domain");
    let (mut said, mut visits) = (0, 0);
    calls::run(
        &run.lists[0],
        run.rows_held(),
        run.settings[0],
        run.settings[1],
        run.position().words(),
        &mut said,
        &mut visits,
    );
    assert_eq!(visits, MOST_STEPS as u64, "every step is visited");
}

/// Four accounts alike over some bars, with that table and those steps of its two trees.
fn four_accounts(run: &Ours, table: &[u8], lists: [&[u8]; 2], bars: &[u64]) {
    let (mut stream, mut done) = ([run.settings[0], 0], 0);
    let mut rooms = [(); 4].map(|()| {
        let (state, rows) = (run.state, run.rows.clone());
        (state, rows, run.equity.clone(), run.trades.clone(), [0; 3])
    });
    let [a, b, c, d] = rooms.each_mut().map(|(state, rows, equity, trades, status)| Account {
        table,
        settings: &run.settings,
        entry: lists[0],
        exit: lists[1],
        state,
        rows,
        equity,
        trades,
        status,
    });
    let answer = accounts(&mut stream, bars, &mut done, a, b, c, d);
    assert_eq!(answer, 0, "bars in the domain");
    assert!(rooms.iter().all(|room| room.4 == [0; 3]), "accounts that run");
}

/// The same with the longest lists, and with the greatest tables.
fn greatest_accounts() {
    let size = Size {
        large: false,
        depth: 14,
        slots: 2,
    };
    let case = size.case();
    let run = Ours::with_room(&case, size.depth, BARS).expect("an accepted case");
    let bars: Vec<u64> = case.bars.iter().take(BARS).flat_map(bar_words).collect();
    let longest = longest_list();
    four_accounts(&run, &case.table.bytes(), [&longest, &longest], &bars);
    for entry in greatest_trees() {
        let table = table_of(entry);
        let lists = [0, 1].map(|tree| translated(&table, tree).expect("an accepted table"));
        four_accounts(&run, &table, [&lists[0], &lists[1]], &bars);
    }
}

/// All of `before` conditions that are nothing but yes, and one more.
fn behind(before: usize, last: Condition) -> Condition {
    Condition::All((0..before).map(|_| always()).chain([last]).collect())
}

/// All in All, so many levels of them over the bottom, with `leaves` conditions that are nothing but yes before the next ones.
fn staircase(levels: usize, leaves: usize, bottom: Condition) -> Condition {
    let each = leaves / levels;
    let stairs = (1..levels).fold(bottom, |inner, _| behind(each, inner));
    behind(leaves - each * (levels - 1), stairs)
}

/// Entries that nest as deep as they may, or are as wide as they may be, or both at once; a node is left for an exit.
fn greatest_trees() -> Vec<Condition> {
    let bottom = || test(17, close(), number(0.0));
    let turned = |levels: usize, inner: Condition| (0..levels).fold(inner, |inner, _| negated(inner));
    vec![
        staircase(1, MOST_NODES - 5, bottom()),
        staircase(MOST_NESTING - 2, MOST_NODES - 4 - (MOST_NESTING - 2), bottom()),
        staircase(MOST_NESTING - 1, MOST_NODES - 2 - (MOST_NESTING - 1), always()),
        turned(MOST_NESTING - 1, always()),
        turned(MOST_NESTING - 2, bottom()),
        turned(MOST_NESTING - 3, test(17, prev(close(), 2), number(0.0))),
    ]
}

/// A table with such an entry.
fn table_of(entry: Condition) -> Vec<u8> {
    let trees = [Some(entry), Some(always()), None, None];
    Table { slots: 0, trees }.bytes()
}

/// Every call over a table, with such an entry.
fn greatest_tables() {
    let at = [0, 0, 0, 2];
    let rows = [0; 14];
    for entry in greatest_trees() {
        let table = table_of(entry);
        let (mut a, mut b) = (0, 0);
        assert_eq!(calls::check(&table, &mut a, &mut b), 0, "an accepted table");
        calls::depth(&table, 0, &mut a, &mut b);
        calls::silent(&table, 1, &mut [0; MOST_NODES], &mut a);
        calls::rule(&table, 0, &rows, at, &mut a);
        calls::why(&table, 0, &rows, at, &mut [0; WHY_LINES * WHY_WORDS], &mut a);
        let (mut lines, mut counts) = ([0; 2 * WHY_LINES * WHY_WORDS], [0; 2]);
        calls::why_over(&table, 0, &rows, &[at, at].concat(), &mut lines, &mut counts);
        let list = translated(&table, 0).expect("an accepted table");
        calls::run(&list, &rows, 0, 2, at, &mut a, &mut b);
    }
}

/// The paper that says how much stack each call takes at most: a controller's memory is laid out by it.
const PAPER: &str = include_str!("../../../docs/PERFORMANCE.md");

/// The column of this machine's processor in the paper's table of stacks; none for one that it does not list.
fn column() -> Option<usize> {
    match std::env::consts::ARCH {
        "aarch64" => Some(1),
        "x86_64" => Some(2),
        "riscv64" => Some(3),
        _ => None,
    }
}

/// The most bytes of stack that the paper gives a call, on this machine's processor.
fn limit(call: &str) -> Option<u64> {
    let column = column()?;
    let named = format!("`{call}`");
    PAPER
        .lines()
        .skip_while(|line| !line.starts_with("| call | aarch64 |"))
        .take_while(|line| line.starts_with('|'))
        .map(|line| line.trim_matches('|').split('|').map(str::trim).collect::<Vec<_>>())
        .find(|cells| cells[0].split(", ").any(|name| name == named))
        .and_then(|cells| cells.get(column)?.replace(',', "").parse().ok())
}

/// Runs what the other commands compare on a painted stack, and writes how much of it each call took; whether all agree, and no call takes more
/// than docs/PERFORMANCE.md says.
pub fn stack(seed: u64, runs: u64) -> bool {
    calls::WATCHED.set(painted::call).expect("nobody else watches");
    longest_lists(seed);
    greatest_tables();
    greatest_accounts();
    let agree = compare(seed, runs)
        && images(seed, runs)
        && extremes(seed, 20 * runs)
        && guard(seed, 200 * runs)
        && metrics(seed, runs)
        && roots(seed, 100 * runs)
        && totals(seed, 100 * runs)
        && stretches(seed, runs)
        && differences(seed, 100 * runs)
        && four(seed, runs)
        && questions(seed, runs);
    println!("\n| call | calls | bytes of stack at most | docs/PERFORMANCE.md |\n|---|---|---|---|");
    let mut within = true;
    for (name, used) in uses() {
        let most = limit(name);
        let said = most.map_or("not listed".to_string(), |most| most.to_string());
        let above = column().is_some() && most.is_none_or(|most| most < used.bytes as u64);
        let mark = if above { ": ABOVE" } else { "" };
        println!("| `{name}` | {} | {} | {said}{mark} |", used.calls, used.bytes);
        within &= !above;
    }
    agree && within
}
