//! Parts of an image: each, of any length and from any place on, is that stretch of the model's image, and no other byte of its room changes; one
//! after another they are all of it; and of damaged settings, states and rows a part refuses what the model says.

use oracle::lists::dice::Dice;
use yshturpa::calls;

use super::lent::room;
use super::{need, same, same_bytes, Outcome, Tally};
use crate::guard::damage::{self, Damaged};
use crate::guard::room::Room;
use crate::model::image;
use crate::ours::Ours;

/// Parts of each image at random places, and damaged ones.
const PLACES: usize = 16;
const DAMAGED: usize = 8;

/// What a part and the count hold before the call.
const STALE: u8 = 0xa6;
const UNCOUNTED: u64 = 0x1234_5678_9abc_def0;

/// Settings, a state and rows, between guards.
struct Held {
    settings: Room<u64>,
    state: Room<u64>,
    rows: Room<u64>,
}

impl Held {
    fn of(run: &Ours) -> Self {
        Self {
            settings: room(run.settings.to_vec()),
            state: room(run.state.to_vec()),
            rows: room(run.rows.clone()),
        }
    }

    fn rooms(&self) -> [&Room<u64>; 3] {
        [&self.settings, &self.state, &self.rows]
    }

    /// The answer and the count; what is handed over stays as it was.
    fn part(&self, at: u64, part: &mut Room<u8>) -> Outcome<(u64, u64)> {
        let mut used = UNCOUNTED;
        let [settings, state, rows] = self.rooms().map(Room::lent);
        let answer = calls::dump_part(settings, state, rows, at, part.lent_mut(), &mut used);
        let kept = |room: &Room<u64>| room.is_unchanged() && room.guards_hold();
        need(self.rooms().into_iter().all(kept), || {
            "a part touched what was handed over".into()
        })?;
        need(part.guards_hold(), || "a part touched a guard".into())?;
        Ok((answer, used))
    }
}

/// A part of so many bytes from `at` on; how many of them are the image's.
fn one(held: &Held, image: &[u8], at: u64, bytes: usize) -> Outcome<usize> {
    let mut part = room(vec![STALE; bytes]);
    let (answer, used) = held.part(at, &mut part)?;
    same("a part's answer", answer, 0)?;
    let from = at.min(image.len() as u64) as usize;
    let model = &image[from..image.len().min(from + bytes)];
    same("the bytes of a part", used, model.len() as u64)?;
    same_bytes(
        &format!("the part of {bytes} bytes at {at}"),
        &part.lent()[..model.len()],
        model,
    )?;
    need(part.is_unchanged_outside(0, model.len()), || {
        "a part wrote past the image's end".into()
    })?;
    Ok(model.len())
}

fn some_length(dice: &mut Dice, image: &[u8]) -> usize {
    match dice.below(6) {
        0 => dice.pick(&[0, 1, 3, 7, 8, 9, 16]),
        1 => dice.pick(&[64, 256, 512, 4_096]),
        2 => dice.below(image.len() as u64 + 300) as usize,
        _ => dice.below(600) as usize,
    }
}

fn some_place(dice: &mut Dice, image: &[u8]) -> u64 {
    let size = image.len() as u64;
    match dice.below(8) {
        0 => dice.pick(&[0, 1, 3, 8, 255, 256, 257]),
        1 => size - 1 - dice.below(9),
        2 => dice.pick(&[size, size + 1, 1 << 32, u64::MAX - 7, u64::MAX]),
        _ => dice.below(size),
    }
}

/// Part after part, until all of the image was given.
fn one_after_another(dice: &mut Dice, held: &Held, image: &[u8], tally: &mut Tally) -> Outcome {
    let mut at = 0;
    while at < image.len() {
        at += one(held, image, at as u64, 1 + some_length(dice, image))?;
        tally.parts += 1;
    }
    Ok(())
}

fn damaged(dice: &mut Dice, run: &Ours, tally: &mut Tally) -> Outcome {
    let mut held = Held::of(run);
    match dice.below(6) {
        0 => damage::content(dice, &mut held.settings),
        1 => damage::length(dice, &mut held.settings),
        2 | 3 => {
            // A count, the entry flag or the entry bar.
            let at = dice.pick(&[0, 1, 2, 3, 6, 7]);
            held.state.content[at] = held.state.content[at].other(dice);
        }
        4 => damage::length(dice, &mut held.state),
        _ => damage::length(dice, &mut held.rows),
    }
    for words in [&mut held.settings, &mut held.state, &mut held.rows] {
        words.lay();
    }
    let model = image::part(&held.settings.content, &held.state.content, &held.rows.content);
    let mut part = room(vec![STALE; dice.pick(&[0, 8, 256, 300])]);
    let at = dice.pick(&[0, 5, 200, 256, 1_000, u64::MAX]);
    let (answer, used) = held.part(at, &mut part)?;
    tally.refused_parts[(answer >> 32) as usize] += 1;
    same("a damaged part's answer", answer, model.err().unwrap_or(0))?;
    if answer == 0 {
        return Ok(());
    }
    same("the count of a refused part", used, UNCOUNTED)?;
    need(part.is_unchanged(), || "a refused part wrote".into())
}

pub fn parts(dice: &mut Dice, run: &Ours, image: &[u8], tally: &mut Tally) -> Outcome {
    let held = Held::of(run);
    one_after_another(dice, &held, image, tally)?;
    for _ in 0..PLACES {
        let (at, bytes) = (some_place(dice, image), some_length(dice, image));
        one(&held, image, at, bytes)?;
        tally.parts += 1;
    }
    (0..DAMAGED).try_for_each(|_| damaged(dice, run, tally))
}
