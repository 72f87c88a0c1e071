//! A write that is cut off: refused with 19 after any byte but the last, and nothing lent changes.

use oracle::lists::dice::Dice;

use super::lent::{Area, Back};
use super::{need, same, Outcome, Tally};
use crate::model::refusal;
use crate::ours::Ours;

/// The largest image that is cut after every byte; of a larger one, so many random cuts.
const SMALL: usize = 4_096;
const CUTS: usize = 1_000;

/// After how many bytes the write is cut, in rising order.
fn places(dice: &mut Dice, size: usize) -> Vec<usize> {
    if size <= SMALL {
        return (0..size).collect();
    }
    let mut places: Vec<usize> = (0..CUTS - 10).map(|_| dice.below(size as u64) as usize).collect();
    // Around the ends of the body and of the header, the mark's bytes among them.
    places.extend((0..5).map(|back| size - 1 - back));
    places.extend((0..5).map(|back| size - 254 - back));
    places.sort_unstable();
    places
}

/// The area after each cut is handed back; a small one is looked at as a whole after each, a large one at the end.
pub fn cut(dice: &mut Dice, run: &Ours, image: &[u8], tally: &mut Tally) -> Outcome {
    let small = image.len() <= SMALL;
    let mut area = Area::cleared(image.len(), 0);
    let mut back = Back::stale(run.rows.len());
    for place in places(dice, image.len()) {
        area.write(run, image, place)?;
        let answer = back.restore(&run.settings, area.image());
        same(&format!("cut after {place} bytes"), answer, refusal(19, 0))?;
        need(back.state.is_unchanged(), || {
            "a refused restore changed the state".into()
        })?;
        if small {
            area.is_as_modelled()?;
            back.is_unchanged()?;
        }
        tally.cuts += 1;
    }
    back.is_unchanged()?;
    back.guards_hold()?;
    area.write(run, image, image.len())?;
    area.is_as_modelled()?;
    tally.small += u64::from(small);
    tally.large += u64::from(!small);
    Ok(())
}
