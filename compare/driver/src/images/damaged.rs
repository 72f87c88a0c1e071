//! Damaged images, settings, states and rooms: a restore and a dump answer what the model says, a refused one changes nothing, and an
//! image that is read is, patterns of NaN apart, the one that its state is written as.

use oracle::lists::dice::Dice;
use yshturpa::calls;
use yshturpa::layout::STATE_WORDS;

use super::lent::{room, Back};
use super::{need, same, same_bytes, same_words, Outcome, Tally};
use crate::guard::damage::{self, Damaged};
use crate::guard::room::Room;
use crate::model::image;
use crate::ours::Ours;

/// Damaged restores and dumps of each image.
const RESTORES: usize = 16;
const DUMPS: usize = 8;

/// Words of a state that are floats: of these any NaN is as good as another.
const FLOATS: [usize; 11] = [8, 9, 10, 12, 13, 14, 16, 18, 19, 20, 21];

fn plain(state: &[u64]) -> Vec<u64> {
    let mut state = state.to_vec();
    for i in FLOATS {
        if f64::from_bits(state[i]).is_nan() {
            state[i] = f64::NAN.to_bits();
        }
    }
    state
}

/// Changes bytes of an image where it matters: anywhere, in the header's numbers, in a word of a row, a whole spare field, or its length.
fn damage_image(dice: &mut Dice, image: &mut Room<u8>) {
    let len = image.content.len();
    if len < 256 {
        return damage::length(dice, image);
    }
    match dice.below(12) {
        0 | 1 => damage::content(dice, image),
        2..=5 => {
            let at = dice.below(136) as usize;
            image.content[at] = image.content[at].other(dice);
        }
        6 => {
            let at = dice.pick(&[16, 17, 18, 19, 20, 24, 104, 112, 136, 255]);
            image.content[at] = dice.pick(&[0, 0, 1, 2, 3, 4]);
        }
        7 => {
            let at = dice.pick(&[8, 12, 20]);
            let number = dice.pick(&[0, 1, 2, 4_096, u32::MAX]);
            image.content[at..at + 4].copy_from_slice(&number.to_le_bytes());
        }
        8 | 9 if len >= 264 => {
            let at = 256 + 8 * dice.below((len - 256) as u64 / 8) as usize;
            let word = damage::word(dice);
            image.content[at..at + 8].copy_from_slice(&word.to_le_bytes());
        }
        10 => other_shape(dice, image),
        _ => damage::length(dice, image),
    }
}

/// Another D or K, now and then with the length that is theirs.
fn other_shape(dice: &mut Dice, image: &mut Room<u8>) {
    if dice.percent(50) {
        image.content[3] = image.content[3].other(dice);
    } else {
        let depth = dice.pick(&[0, 1, 2, 14, 4_096, 4_097, u16::MAX]);
        image.content[6..8].copy_from_slice(&depth.to_le_bytes());
    }
    let depth = u16::from_le_bytes([image.content[6], image.content[7]]);
    if dice.percent(80) {
        let size = image::size(image.content[3].into(), depth.into());
        image.content.resize(size as usize, 0);
    }
}

fn damage_once(dice: &mut Dice, settings: &mut Room<u64>, image: &mut Room<u8>, back: &mut Back) {
    match dice.below(20) {
        0 => damage::content(dice, settings),
        1 => {
            if let Some(shape) = settings.content.get_mut(dice.pick(&[0, 1])) {
                *shape = dice.pick(&[0, 1, 2, 14, 64]);
            }
        }
        2 => damage::length(dice, settings),
        3 => damage::length(dice, &mut back.state),
        4 => damage::length(dice, &mut back.rows),
        _ => damage_image(dice, image),
    }
}

fn restore(dice: &mut Dice, run: &Ours, whole: &[u8], tally: &mut Tally) -> Outcome {
    let mut settings = room(run.settings.to_vec());
    let mut image = room(whole.to_vec());
    let mut back = Back::stale(run.rows.len());
    for _ in 0..dice.pick(&[1, 1, 2, 3]) {
        damage_once(dice, &mut settings, &mut image, &mut back);
    }
    for words in [&mut settings, &mut back.state, &mut back.rows] {
        words.lay();
    }
    image.lay();
    let model = image::restore(
        &settings.content,
        &back.state.content,
        &image.content,
        &back.rows.content,
    );
    let answer = back.restore(settings.lent(), image.lent());
    tally.restores[(answer >> 32) as usize] += 1;
    same("a damaged restore's answer", answer, model.err().unwrap_or(0))?;
    need(settings.guards_hold() && image.guards_hold(), || {
        "a restore touched a guard".into()
    })?;
    need(settings.is_unchanged() && image.is_unchanged(), || {
        "a restore changed what was handed over".into()
    })?;
    back.guards_hold()?;
    match answer {
        0 => read(&settings.content, &image.content, &back),
        _ => back.is_unchanged(),
    }
}

/// What an accepted image is read as, and written as again.
fn read(settings: &[u64], image: &[u8], back: &Back) -> Outcome {
    let (state, rows) = (back.state.lent(), back.rows.lent());
    let window = image::rows(image);
    let (held, past) = rows.split_at(window.len());
    same_words(
        "the state read",
        &plain(state)[..STATE_WORDS],
        &plain(&image::state(image)),
    )?;
    need(state[STATE_WORDS..] == back.state.content[STATE_WORDS..], || {
        "past the state".into()
    })?;
    same_words("the rows read", held, &window)?;
    same_words("past the rows read", past, &back.rows.content[window.len()..])?;
    let mut area = room(vec![0; image.len()]);
    same(
        "a dump of it",
        calls::dump(settings, state, rows, area.lent_mut(), 0, image.len() as u64),
        0,
    )?;
    need(area.guards_hold(), || "a dump touched a guard".into())?;
    same_bytes("written again", area.lent(), &image::image(settings, state, rows))
}

fn dump(dice: &mut Dice, run: &Ours, whole: &[u8], tally: &mut Tally) -> Outcome {
    let mut settings = room(run.settings.to_vec());
    let mut state = room(run.state.to_vec());
    let mut rows = room(run.rows.clone());
    let mut area = room(vec![0; whole.len()]);
    match dice.below(8) {
        0 => damage::content(dice, &mut settings),
        1 => damage::length(dice, &mut settings),
        2 | 3 => {
            // A count, the entry flag or the entry bar.
            let at = dice.pick(&[0, 1, 2, 3, 6, 7]);
            state.content[at] = state.content[at].other(dice);
        }
        4 => damage::length(dice, &mut state),
        5 => damage::length(dice, &mut rows),
        _ => damage::length(dice, &mut area),
    }
    for words in [&mut settings, &mut state, &mut rows] {
        words.lay();
    }
    area.lay();
    let model = image::dump(&settings.content, &state.content, &rows.content, area.content.len());
    let answer = calls::dump(settings.lent(), state.lent(), rows.lent(), area.lent_mut(), 0, u64::MAX);
    tally.dumps[(answer >> 32) as usize] += 1;
    same("a damaged dump's answer", answer, model.err().unwrap_or(0))?;
    let unchanged = [&settings, &state, &rows]
        .iter()
        .all(|room| room.is_unchanged() && room.guards_hold());
    need(unchanged && area.guards_hold(), || {
        "a dump touched what is not the area".into()
    })?;
    if answer != 0 {
        return need(area.is_unchanged(), || "a refused dump changed the area".into());
    }
    let size = image::size(settings.content[0], settings.content[1]) as usize;
    need(area.is_unchanged_outside(0, size), || {
        "a dump changed what lies past the image".into()
    })
}

pub fn damaged(dice: &mut Dice, run: &Ours, image: &[u8], tally: &mut Tally) -> Outcome {
    (0..RESTORES).try_for_each(|_| restore(dice, run, image, tally))?;
    (0..DUMPS).try_for_each(|_| dump(dice, run, image, tally))
}
