//! `driver differences SEED COUNT`: two runs compared, against request 12 written once more; every list and room between guards.
//!
//! Pairs of runs that are equal, off by one word, shorter, longer, empty, ragged or strangers to each other, each compared both ways, in a room
//! that just holds the lines, in one that is a word short, and in others. The lines of the second way are the first's with their last two words
//! exchanged.

use oracle::lists::dice::Dice;
use yshturpa::calls;
use yshturpa::layout::{DIFFERENCE_WORDS, POINT_WORDS, TRADE_WORDS};

use crate::guard::room::Room;
use crate::model::refusal;
use crate::progress::Progress;

/// What stands behind the count and in a room that no line was written to.
const UNTOUCHED: u64 = 0x5a5a_a5a5_5a5a_a5a5;
const LINES_ROOM: u64 = 15;

type Line = [u64; DIFFERENCE_WORDS];

/// A run's equity points and trades.
#[derive(Clone, Default)]
struct Run {
    equity: Vec<u64>,
    trades: Vec<u64>,
}

impl Run {
    fn whole(&self) -> bool {
        self.equity.len().is_multiple_of(POINT_WORDS) && self.trades.len().is_multiple_of(TRADE_WORDS)
    }

    fn points(&self) -> Vec<&[u64]> {
        self.equity.chunks(POINT_WORDS).collect()
    }

    fn closed(&self) -> Vec<&[u64]> {
        self.trades.chunks(TRADE_WORDS).collect()
    }
}

/// Where two lists differ in how many records they have: from which one on, and how many each has.
fn surplus(sort: u64, a: usize, b: usize) -> Option<Line> {
    (a != b).then(|| [sort, a.min(b) as u64, 0, a as u64, b as u64])
}

/// The lines of two runs of whole records, sort by sort.
fn model(a: &Run, b: &Run) -> Vec<Line> {
    let (points, others) = (a.points(), b.points());
    let both = points.iter().zip(&others).enumerate();
    let first = both
        .map(|(number, (x, y))| [1, number as u64, 1, x[1], y[1]])
        .find(|line| line[3] != line[4]);
    let trades = a.closed();
    let pairs = trades.iter().zip(b.closed()).enumerate();
    let words = pairs.flat_map(|(number, (x, y))| {
        let word = move |at: usize| [2, number as u64, at as u64, x[at], y[at]];
        (0..TRADE_WORDS).map(word).filter(|line| line[3] != line[4])
    });
    let more = [
        surplus(3, trades.len(), b.closed().len()),
        surplus(4, points.len(), others.len()),
    ];
    first
        .into_iter()
        .chain(words)
        .chain(more.into_iter().flatten())
        .collect()
}

/// Words that look alike to a float's comparison, and any.
fn some_word(dice: &mut Dice) -> u64 {
    match dice.below(8) {
        0 => dice.pick(&[0, 1 << 63]),
        1 => 0x7ff8_0000_0000_0000 | dice.below(4),
        2 => dice.below(7),
        3 => dice.bits(),
        _ => dice.span(90.0, 110.0).to_bits(),
    }
}

fn some_words(dice: &mut Dice, count: u64) -> Vec<u64> {
    (0..count).map(|_| some_word(dice)).collect()
}

/// Records of a list: most lists are short, some are not.
fn some_count(dice: &mut Dice) -> u64 {
    match dice.below(40) {
        0 => dice.below(400),
        1..=8 => dice.below(30),
        9..=12 => 0,
        _ => dice.below(5),
    }
}

fn some_run(dice: &mut Dice) -> Run {
    let (points, trades) = (some_count(dice), some_count(dice));
    Run {
        equity: some_words(dice, points * POINT_WORDS as u64),
        trades: some_words(dice, trades * TRADE_WORDS as u64),
    }
}

/// A word that is another: by its sign alone, by one digit, or altogether.
fn change(dice: &mut Dice, list: &mut [u64]) {
    if list.is_empty() {
        return;
    }
    let at = dice.below(list.len() as u64) as usize;
    list[at] ^= match dice.below(3) {
        0 => 1 << 63,
        1 => 1 << dice.below(64),
        _ => dice.bits(),
    };
}

/// Fewer records or more, or a list that is no whole records.
fn resize(dice: &mut Dice, list: &mut Vec<u64>, width: usize, ragged: bool) {
    let records = list.len() / width;
    let new = match dice.below(3) {
        0 => 0,
        1 => records + dice.between(1, 3) as usize,
        _ => dice.below(records as u64 + 1) as usize,
    };
    let words = new * width
        + if ragged {
            dice.between(1, width as u64 - 1) as usize
        } else {
            0
        };
    list.resize(words, some_word(dice));
}

/// A run beside another one.
fn beside(dice: &mut Dice, run: &Run) -> Run {
    let mut other = run.clone();
    let of_points = dice.percent(50);
    let (list, width) = match of_points {
        true => (&mut other.equity, POINT_WORDS),
        false => (&mut other.trades, TRADE_WORDS),
    };
    match dice.below(16) {
        0..=2 => {}
        3..=7 => change(dice, list),
        8 | 9 => (0..dice.between(2, 12)).for_each(|_| change(dice, list)),
        10 | 11 => resize(dice, list, width, false),
        12 => {
            resize(dice, list, width, false);
            change(dice, list);
        }
        13 => resize(dice, list, width, true),
        14 => other = Run::default(),
        _ => other = some_run(dice),
    }
    other
}

/// The words of a room for so many lines: just enough, a word short, none, or more.
fn some_room(dice: &mut Dice, lines: usize) -> usize {
    let just = DIFFERENCE_WORDS * lines;
    match dice.below(8) {
        0..=2 => just,
        3 | 4 => just.saturating_sub(1),
        5 => dice.below(just as u64 + 1) as usize,
        6 => 0,
        _ => just + dice.between(1, 12) as usize,
    }
}

/// Both runs, the lines and the count, as they are handed over and lent.
#[derive(Default)]
struct Lent {
    data: [Room<u64>; 4],
    lines: Room<u64>,
    count: Room<u64>,
}

impl Lent {
    fn lay(&mut self, a: &Run, b: &Run, words: usize) {
        for (room, list) in self.data.iter_mut().zip([&a.equity, &a.trades, &b.equity, &b.trades]) {
            room.fill(list);
            room.lay();
        }
        self.lines.fill(&vec![UNTOUCHED; words]);
        self.lines.lay();
        self.count.fill(&[UNTOUCHED]);
        self.count.lay();
    }

    fn call(&mut self) -> u64 {
        let [equity, trades, other_equity, other_trades] = &self.data;
        calls::compare(
            equity.lent(),
            trades.lent(),
            other_equity.lent(),
            other_trades.lent(),
            self.lines.lent_mut(),
            &mut self.count.lent_mut()[0],
        )
    }

    fn guards_hold(&self) -> bool {
        let lent = [&self.lines, &self.count];
        self.data.iter().chain(lent).all(Room::guards_hold) && self.data.iter().all(Room::is_unchanged)
    }
}

/// What was compared, by what the call answered, and how many lines of each sort there were.
#[derive(Default)]
struct Tally {
    none: u64,
    some: u64,
    refused: [u64; 2],
    sorts: [u64; 5],
}

/// One call, held against the model.
fn compared(lent: &mut Lent, a: &Run, b: &Run, words: usize, tally: &mut Tally) -> Result<(), String> {
    lent.lay(a, b, words);
    let answer = lent.call();
    let lines = if a.whole() && b.whole() {
        Some(model(a, b))
    } else {
        None
    };
    let (expected, left) = match &lines {
        None => (refusal(13, 0), None),
        Some(lines) if DIFFERENCE_WORDS * lines.len() > words => (refusal(10, LINES_ROOM), None),
        Some(lines) => (0, Some(lines)),
    };
    if answer != expected {
        return Err(format!("answers {answer:x}, the model {expected:x}"));
    }
    if !lent.guards_hold() {
        return Err("a guard, or what was only handed over, was touched".into());
    }
    let Some(lines) = left else {
        tally.refused[usize::from(answer >> 32 == 10)] += 1;
        return match lent.lines.is_unchanged() && lent.count.is_unchanged() {
            true => Ok(()),
            false => Err("a refused call changed what was lent".into()),
        };
    };
    let mut room = vec![UNTOUCHED; words];
    room[..DIFFERENCE_WORDS * lines.len()].copy_from_slice(&lines.concat());
    if lent.lines.lent() != room || lent.count.lent() != [lines.len() as u64] {
        return Err(format!(
            "{} lines {:x?}\nthe model {} lines {room:x?}",
            lent.count.lent()[0],
            lent.lines.lent(),
            lines.len()
        ));
    }
    match lines.is_empty() {
        true => tally.none += 1,
        false => tally.some += 1,
    }
    lines.iter().for_each(|line| tally.sorts[line[0] as usize] += 1);
    Ok(())
}

/// With the runs exchanged the same lines come, with their last two words exchanged.
fn exchanged(a: &Run, b: &Run) -> bool {
    let back = model(b, a)
        .into_iter()
        .map(|[sort, number, word, x, y]| [sort, number, word, y, x]);
    back.eq(model(a, b))
}

fn pair(dice: &mut Dice, lent: &mut Lent, tally: &mut Tally) -> Result<(), String> {
    let mut run = some_run(dice);
    let other = beside(dice, &run);
    if dice.below(24) == 0 {
        resize(dice, &mut run.trades, TRADE_WORDS, true);
    }
    let whole = run.whole() && other.whole();
    let lines = if whole { model(&run, &other).len() } else { 3 };
    let told = compared(lent, &run, &other, some_room(dice, lines), tally)
        .and_then(|()| compared(lent, &other, &run, some_room(dice, lines), tally))
        .and_then(|()| match !whole || exchanged(&run, &other) {
            true => Ok(()),
            false => Err("the model's own lines are not those of the runs exchanged".into()),
        });
    told.map_err(|what| {
        format!(
            "{what}\nequity {:x?}\ntrades {:x?}\nother equity {:x?}\nother trades {:x?}",
            run.equity, run.trades, other.equity, other.trades
        )
    })
}

/// Compares `count` pairs; whether each call was as it must be.
pub fn differences(seed: u64, count: u64) -> bool {
    let dice = &mut Dice::new(seed);
    let (mut lent, mut tally) = (Lent::default(), Tally::default());
    let mut progress = Progress::new("differences", count);
    for number in 0..count {
        if let Err(what) = pair(dice, &mut lent, &mut tally) {
            println!("pair {number}: {what}");
            println!("differences: seed {seed}, {number} pairs compared, 1 differs");
            return false;
        }
        if number % 4_096 == 0 {
            progress.at(number, String::new);
        }
    }
    let [_, equity, words, trades, points] = tally.sorts;
    println!(
        "calls with no line {}, with lines {}, refused with 13: {}, with 10: {}; lines of sort 1: {equity}, 2: {words}, 3: {trades}, 4: {points}",
        tally.none, tally.some, tally.refused[0], tally.refused[1]
    );
    println!("differences: seed {seed}, {count} pairs compared both ways, 0 differ");
    true
}
