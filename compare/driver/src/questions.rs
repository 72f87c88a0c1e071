//! `driver questions SEED COUNT`: `ysh_why_over` against a call of `ysh_why` for each row, and `ysh_version` against the header.
//!
//! Tables of both versions, rows with any words in them, a position for each of the newest rows, rooms that just hold the places or are longer.
//! Beside each call three with one to three things damaged in it; which of them are refused, and how, is request 4 written once more
//! (`model::refusals`). Everything stands between guards; a refused call changes nothing.

use oracle::lists::dice::Dice;
use yshturpa::calls;
use yshturpa::layout::{POSITION_WORDS, WHY_LINES, WHY_WORDS};

use crate::case::row_words;
use crate::cases;
use crate::extremes;
use crate::guard::damage;
use crate::guard::room::Room;
use crate::model::refusals;
use crate::progress::Progress;

/// Words of the lines of one row.
const PLACE: usize = WHY_LINES * WHY_WORDS;

/// Rows that are asked in a call at most, and rows before them.
const MOST_ROWS: u64 = 24;

/// Damaged calls beside each that is whole.
const DAMAGED: usize = 3;

/// What a call is handed and lent, each between guards.
#[derive(Default)]
struct Lent {
    table: Room<u8>,
    rows: Room<u64>,
    positions: Room<u64>,
    lines: Room<u64>,
    counts: Room<u64>,
}

#[derive(Default)]
struct Tally {
    calls: u64,
    rows: u64,
    lines: u64,
    damaged: u64,
    /// Answers by number: 0 for work done, 1 to 13.
    answers: [u64; 14],
}

/// A position, now and then of words that are none.
fn some_position(dice: &mut Dice) -> [u64; POSITION_WORDS] {
    let bars_seen = dice.pick(&[1, 5, 9, 4_294_967_295]);
    let qty = dice.pick(&[0.0, 1.5, -2.0, f64::EPSILON, f64::NAN]).to_bits();
    let entry_bar = bars_seen - 1 - dice.below(bars_seen.min(8));
    [qty, dice.pick(&[0, 1, 1, u64::MAX]), entry_bar, bars_seen]
}

fn junk(dice: &mut Dice, words: usize) -> Vec<u64> {
    let word = dice.bits();
    (0..words as u64).map(|i| word ^ i).collect()
}

impl Lent {
    /// A whole call: a random table with rows of its slots.
    fn some(seed: u64, number: u64, dice: &mut Dice) -> Self {
        let count = dice.below(3 * MOST_ROWS) as usize;
        let (table, rows) = match number % 3 {
            0 => extremes::some_table_and_rows(dice, count as u64),
            _ => {
                let mut case = cases::some_case(seed, number).0;
                case.bars.truncate(count);
                (case.table.bytes(), case.bars.iter().flat_map(row_words).collect())
            }
        };
        let asked = dice.below(MOST_ROWS.min(rows.len() as u64 / (7 + u64::from(table[3]))) + 1) as usize;
        let mut lent = Self::default();
        lent.positions.content = (0..asked).flat_map(|_| some_position(dice)).collect();
        let places = asked * PLACE + dice.pick(&[0, 0, 1, PLACE]);
        lent.lines.content = junk(dice, places);
        let counts = asked + dice.pick(&[0, 0, 1]);
        lent.counts.content = junk(dice, counts);
        (lent.table.content, lent.rows.content) = (table, rows);
        for _ in 0..dice.below(4) {
            damage::content(dice, &mut lent.rows);
        }
        lent
    }

    fn damage(&mut self, dice: &mut Dice) {
        match dice.below(10) {
            0 | 1 => damage::content(dice, &mut self.table),
            2 => damage::length(dice, &mut self.table),
            3 => damage::length(dice, &mut self.rows),
            4 | 5 => damage::content(dice, &mut self.positions),
            6 => damage::length(dice, &mut self.positions),
            7 => damage::length(dice, &mut self.lines),
            8 => damage::length(dice, &mut self.counts),
            _ => self.positions.content.extend([0, 0, 0, 1]),
        }
    }

    /// What the model says, and what a call for each row leaves where nothing is refused.
    fn expected(&self, tree: u64) -> Result<(u64, Vec<u64>, Vec<u64>), String> {
        let [rows, positions] = [&self.rows.content, &self.positions.content];
        let (mut lines, mut counts) = (self.lines.content.clone(), self.counts.content.clone());
        if let Err(refused) = refusals::why_over(&self.table.content, rows, positions, lines.len(), counts.len()) {
            return Ok((refused, lines, counts));
        }
        let width = 7 + usize::from(self.table.content[3]);
        let before = rows.len() / width - counts_of(positions);
        for (i, at) in positions.chunks_exact(POSITION_WORDS).enumerate() {
            let upto = &rows[..(before + i + 1) * width];
            let at = at.try_into().expect("four words");
            let place = &mut lines[i * PLACE..(i + 1) * PLACE];
            let answer = calls::why(&self.table.content, tree, upto, at, place, &mut counts[i]);
            if answer != 0 {
                return Err(format!("row {i} alone is refused with {answer:x}"));
            }
        }
        Ok((0, lines, counts))
    }

    fn call(&mut self, tree: u64, tally: &mut Tally) -> Result<(), String> {
        let (expected, lines, counts) = self.expected(tree)?;
        self.table.lay();
        for room in [&mut self.rows, &mut self.positions, &mut self.lines, &mut self.counts] {
            room.lay();
        }
        let [rows, positions] = [self.rows.lent(), self.positions.lent()];
        let answer = calls::why_over(
            self.table.lent(),
            tree,
            rows,
            positions,
            self.lines.lent_mut(),
            self.counts.lent_mut(),
        );
        if answer != expected {
            return Err(format!("answers {answer:x}, the model {expected:x}"));
        }
        let words = [&self.rows, &self.positions, &self.lines, &self.counts];
        if !self.table.guards_hold() || !words.into_iter().all(Room::guards_hold) {
            return Err("a guard was touched".into());
        }
        if !self.table.is_unchanged() || !self.rows.is_unchanged() || !self.positions.is_unchanged() {
            return Err("what was only handed over was touched".into());
        }
        if self.counts.lent() != counts || self.lines.lent() != lines {
            let first = self.lines.lent().iter().zip(&lines).position(|(a, b)| a != b);
            let said = self.counts.lent();
            return Err(format!(
                "counts {said:x?}, row by row {counts:x?}; the first word of a line that differs: {first:?}"
            ));
        }
        tally.answers[(answer >> 32) as usize] += 1;
        if answer == 0 {
            let asked = counts_of(&self.positions.content);
            tally.rows += asked as u64;
            tally.lines += counts[..asked].iter().sum::<u64>();
        }
        Ok(())
    }

    fn text(&self, tree: u64) -> String {
        format!(
            "table {}\ntree {tree}, {} words of lines, {} counts\nrows {:x?}\npositions {:x?}",
            oracle::words::hex_of_bytes(&self.table.content),
            self.lines.content.len(),
            self.counts.content.len(),
            self.rows.content,
            self.positions.content
        )
    }
}

/// As many rows are asked.
fn counts_of(positions: &[u64]) -> usize {
    positions.len() / POSITION_WORDS
}

/// A whole call, and damaged ones over the same table and rows.
fn question(seed: u64, number: u64, tally: &mut Tally) -> Result<(), String> {
    let dice = &mut cases::dice_of(!seed, number);
    let tree = dice.pick(&[0, 0, 0, 1, 1, 2, 3, 4, u64::MAX]);
    let mut lent = Lent::some(seed, number, dice);
    lent.call(tree, tally)
        .map_err(|what| format!("{what}\n{}", lent.text(tree)))?;
    tally.calls += 1;
    for _ in 0..DAMAGED {
        let mut bad = Lent::default();
        bad.table.fill(&lent.table.content);
        bad.rows.fill(&lent.rows.content);
        bad.positions.fill(&lent.positions.content);
        bad.lines.fill(&lent.lines.content);
        bad.counts.fill(&lent.counts.content);
        (0..dice.between(1, 3)).for_each(|_| bad.damage(dice));
        bad.call(tree, tally)
            .map_err(|what| format!("damaged: {what}\n{}", bad.text(tree)))?;
        tally.damaged += 1;
    }
    Ok(())
}

/// The number that the header has.
fn header_version() -> u64 {
    let header = include_str!("../../../include/yshturpa.h");
    let line = header
        .lines()
        .find_map(|line| line.strip_prefix("#define YSH_VERSION "));
    let number = line.and_then(|rest| rest.split_whitespace().next()?.parse().ok());
    number.expect("the header has a version")
}

/// Compares `count` calls; whether each was as it must be.
pub fn questions(seed: u64, count: u64) -> bool {
    let version = calls::version();
    if version != header_version() {
        println!("the library is version {version}, the header {}", header_version());
        println!("questions: seed {seed}, 0 compared, 1 differs");
        return false;
    }
    let mut tally = Tally::default();
    let mut progress = Progress::new("questions", count);
    for number in 0..count {
        if let Err(what) = question(seed, number, &mut tally) {
            println!("question {number}: {what}");
            println!("questions: seed {seed}, {number} compared, 1 differs");
            return false;
        }
        progress.at(number, String::new);
    }
    println!("answers by number, 0 to 13: {:?}", tally.answers);
    println!(
        "questions: seed {seed}, {} calls and {} damaged ones, {} rows with {} lines as in a call for each, version {version}, 0 differ",
        tally.calls, tally.damaged, tally.rows, tally.lines
    );
    true
}
