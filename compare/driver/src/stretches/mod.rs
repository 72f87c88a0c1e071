//! `driver stretches SEED COUNT`: the high and the low of stretches against a plain loop, and damaged calls, every room between guards.

pub mod model;

use oracle::lists::dice::{Dice, ODD};
use yshturpa::calls;

use crate::guard::room::Room;
use crate::progress::Progress;

/// Closes of the largest rooms, and how many questions are asked of each; of smaller ones more.
const YEAR: u64 = 525_600;
const OF_A_YEAR: u64 = 100;
const OF_A_ROOM: u64 = 400;

/// What went wrong.
type Outcome = Result<(), String>;

/// Rooms with their bars, and the four words of an answer.
struct Rooms {
    held: Room<u64>,
    closes: Room<u64>,
    blocks: Room<u64>,
    best: Room<u64>,
}

/// A close: of a few, so that many are equal; a zero of either sign; a walk's; any finite bits.
fn some_close(dice: &mut Dice, sort: u64, before: u64) -> u64 {
    let close = match sort {
        0 => dice.below(5) as f64 - 2.0,
        1 => dice.pick(&[0.0, -0.0, 1e-300, -1e-300]),
        2 => dice.pick(&ODD),
        3 => f64::from_bits(dice.bits()),
        _ => f64::from_bits(before) + dice.span(-1.0, 1.0),
    };
    if close.is_finite() {
        close.to_bits()
    } else {
        before
    }
}

/// Words that must not be looked at.
fn junk(dice: &mut Dice, count: u64) -> Vec<u64> {
    (0..count).map(|_| dice.bits()).collect()
}

impl Rooms {
    /// Rooms for `bars` bars, with none held and a few words more than they need.
    fn empty(dice: &mut Dice, bars: u64) -> Self {
        let (closes, blocks) = (bars + dice.below(3), model::block_words(bars) + dice.below(6));
        let mut rooms = Self {
            held: Room::default(),
            closes: Room::default(),
            blocks: Room::default(),
            best: Room::default(),
        };
        rooms.held.fill(&[0]);
        rooms.closes.fill(&junk(dice, closes));
        rooms.blocks.fill(&junk(dice, blocks));
        rooms.best.fill(&[0x0ddb_a115; 4]);
        rooms.lay();
        rooms
    }

    fn all(&self) -> [&Room<u64>; 4] {
        [&self.held, &self.closes, &self.blocks, &self.best]
    }

    fn lay(&mut self) {
        for room in [&mut self.held, &mut self.closes, &mut self.blocks, &mut self.best] {
            room.lay();
        }
    }

    /// Takes what the rooms hold now as what they held.
    fn keep(&mut self) {
        for room in [&mut self.held, &mut self.closes, &mut self.blocks] {
            let now = room.lent().to_vec();
            room.fill(&now);
        }
    }

    fn append(&mut self, close: u64) -> u64 {
        calls::append(
            &mut self.held.lent_mut()[0],
            close,
            self.closes.lent_mut(),
            self.blocks.lent_mut(),
        )
    }

    fn stretch(&mut self, held: u64, first: u64, last: u64) -> u64 {
        let [high, high_bar, low, low_bar] = self.best.lent_mut() else {
            panic!("four words")
        };
        calls::stretch(
            held,
            first,
            last,
            self.closes.lent(),
            self.blocks.lent(),
            high,
            high_bar,
            low,
            low_bar,
        )
    }

    fn guards_hold(&self) -> bool {
        self.all().into_iter().all(Room::guards_hold)
    }

    fn unchanged(&self) -> bool {
        self.all().into_iter().all(Room::is_unchanged)
    }
}

fn check(holds: bool, what: impl Fn() -> String) -> Outcome {
    if holds {
        Ok(())
    } else {
        Err(what())
    }
}

/// Appends `bars` closes, each answered 0; in small rooms no word may change but the close's, its block's and the count.
fn fill(dice: &mut Dice, rooms: &mut Rooms, bars: u64) -> Result<Vec<u64>, String> {
    let sort = dice.below(6);
    let mut given: Vec<u64> = Vec::new();
    for bar in 0..bars {
        let close = some_close(dice, sort, given.last().copied().unwrap_or(100f64.to_bits()));
        let answer = rooms.append(close);
        given.push(close);
        check(answer == 0 && rooms.held.lent()[0] == bar + 1, || {
            format!("bar {bar}: {answer:x}")
        })?;
        if bars < 1_000 {
            let (at, block) = (bar as usize, model::block_at(bar));
            let kept =
                rooms.closes.is_unchanged_outside(at, at + 1) && rooms.blocks.is_unchanged_outside(block, block + 4);
            check(kept && rooms.guards_hold() && rooms.best.is_unchanged(), || {
                format!("bar {bar}: a word too many")
            })?;
            rooms.keep();
        }
    }
    rooms.keep();
    check(
        rooms.closes.lent()[..bars as usize] == given[..] && rooms.guards_hold(),
        || "other closes".into(),
    )?;
    Ok(given)
}

/// A bar, now and then at the edge of a block.
fn some_bar(dice: &mut Dice, bars: u64) -> u64 {
    let bar = dice.below(bars);
    match dice.below(4) {
        0 => bar / 64 * 64,
        1 => (bar / 64 * 64 + 63).min(bars - 1),
        _ => bar,
    }
}

fn ask(dice: &mut Dice, rooms: &mut Rooms, given: &[u64]) -> Outcome {
    let bars = given.len() as u64;
    let (a, b) = (some_bar(dice, bars), some_bar(dice, bars));
    let (first, last) = (a.min(b), a.max(b));
    let answer = rooms.stretch(bars, first, last);
    let best = model::plain_loop(given, first as usize, last as usize);
    let said = rooms.best.lent().to_vec();
    rooms.best.fill(&said);
    check(
        answer == 0 && said == best && rooms.guards_hold() && rooms.unchanged(),
        || format!("{first} to {last} of {bars}: {answer:x}, {said:x?} and not {best:x?}"),
    )
}

/// A number near what is right, or any.
fn damaged(dice: &mut Dice, right: u64) -> u64 {
    match dice.below(6) {
        0 => dice.bits(),
        1 => 4_294_967_294 + dice.below(4),
        2 => dice.below(right.saturating_add(2)),
        _ => right.wrapping_add(dice.below(5)).wrapping_sub(2),
    }
}

/// Rooms and counts of any size, and any words in them.
fn damaged_rooms(dice: &mut Dice) -> Rooms {
    let bars = dice.below(300);
    let mut rooms = Rooms::empty(dice, bars);
    let (closes, blocks) = (
        damaged(dice, bars).min(600),
        damaged(dice, model::block_words(bars)).min(60),
    );
    rooms.closes.fill(&junk(dice, closes));
    rooms.blocks.fill(&junk(dice, blocks));
    rooms.held.fill(&[damaged(dice, bars)]);
    rooms.lay();
    rooms
}

fn damaged_append(dice: &mut Dice) -> Outcome {
    let mut rooms = damaged_rooms(dice);
    let (held, close) = (rooms.held.content[0], dice.pick(&ODD).to_bits());
    let (closes, blocks) = (rooms.closes.content.len(), rooms.blocks.content.len());
    let expected = model::append(held, close, closes, blocks);
    let answer = rooms.append(close);
    let kept = match expected {
        0 => {
            let (at, block) = (held as usize, model::block_at(held));
            rooms.closes.is_unchanged_outside(at, at + 1)
                && rooms.blocks.is_unchanged_outside(block, block + 4)
                && rooms.held.lent()[0] == held + 1
        }
        _ => rooms.unchanged(),
    };
    check(answer == expected && kept && rooms.guards_hold(), || {
        format!("append at {held} to {closes} and {blocks}: {answer:x} and not {expected:x}")
    })
}

fn damaged_stretch(dice: &mut Dice) -> Outcome {
    let mut rooms = damaged_rooms(dice);
    let held = rooms.held.content[0];
    let (first, last) = (damaged(dice, held / 2), damaged(dice, held));
    let (closes, blocks) = (rooms.closes.content.len(), rooms.blocks.content.len());
    let expected = model::stretch(held, first, last, closes, blocks);
    let answer = rooms.stretch(held, first, last);
    let kept = expected == 0 || rooms.best.is_unchanged();
    let read_only = rooms.closes.is_unchanged() && rooms.blocks.is_unchanged();
    check(answer == expected && kept && read_only && rooms.guards_hold(), || {
        format!("stretch {first} to {last} of {held}, {closes} and {blocks}: {answer:x} and not {expected:x}")
    })
}

/// Rooms filled from empty, questions over them, and as many damaged calls of each sort; how many questions were asked.
fn round(dice: &mut Dice, number: u64) -> Result<u64, String> {
    let (bars, questions) = match number % 64 {
        0 => (YEAR - dice.below(200), OF_A_YEAR),
        1..=8 => (1 + dice.below(20_000), OF_A_ROOM),
        _ => (1 + dice.below(400), OF_A_ROOM),
    };
    let mut rooms = Rooms::empty(dice, bars);
    let given = fill(dice, &mut rooms, bars)?;
    for _ in 0..questions {
        ask(dice, &mut rooms, &given)?;
        damaged_append(dice)?;
        damaged_stretch(dice)?;
    }
    Ok(questions)
}

pub fn stretches(seed: u64, count: u64) -> bool {
    let dice = &mut Dice::new(seed);
    let mut progress = Progress::new("stretches", count);
    let (mut asked, mut rounds) = (0, 0);
    while asked < count {
        match round(dice, rounds) {
            Ok(questions) => asked += questions,
            Err(what) => {
                println!("{what}");
                println!("stretches: seed {seed}, {asked} questions compared, 1 differs");
                return false;
            }
        }
        rounds += 1;
        progress.at(asked, String::new);
    }
    println!(
        "stretches: seed {seed}, {asked} questions over {rounds} rooms and {} damaged calls compared, 0 differ",
        2 * asked
    );
    true
}
