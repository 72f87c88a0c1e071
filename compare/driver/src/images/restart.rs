//! The restart: from a whole image, in stale rooms and with empty books, further bars give what the unbroken run gives for them.

use oracle::lists::dice::Dice;
use yshturpa::layout::{state, POINT_WORDS, TRADE_WORDS};

use super::lent::Back;
use super::{dumped, same, same_words, Outcome, Tally};
use crate::case::{bar_words, Case};
use crate::model::image;
use crate::ours::Ours;

/// The words of a state but the counts of rows, points and trades.
fn kept(run: &Ours) -> Vec<u64> {
    let counted = state::ROWS_HELD..=state::TRADES;
    let words = run.state.iter().enumerate().filter(|(i, _)| !counted.contains(i));
    words.map(|(_, &word)| word).collect()
}

/// A run as it comes back from an image.
fn restored(dice: &mut Dice, case: &Case, bars: usize, image: &[u8]) -> Outcome<Ours> {
    let rows = case.settings.depth + dice.pick(&[0, 1, 5]);
    let mut run = Ours::with_room(case, rows, bars).map_err(|refusal| format!("a fresh run: {refusal:?}"))?;
    let mut back = Back::stale(run.rows.len());
    same("a restore's answer", back.restore(&run.settings, image), 0)?;
    back.guards_hold()?;
    let window = image::rows(image);
    same_words("the state restored", back.state.lent(), &image::state(image))?;
    same_words("the rows restored", &back.rows.lent()[..window.len()], &window)?;
    same_words(
        "what lies past them",
        &back.rows.lent()[window.len()..],
        &back.rows.content[window.len()..],
    )?;
    run.state.copy_from_slice(back.state.lent());
    run.rows.copy_from_slice(back.rows.lent());
    Ok(run)
}

fn same_runs(unbroken: &Ours, again: &Ours, (points, trades): (usize, usize)) -> Outcome {
    let window = |run: &Ours| image::window(&run.settings, &run.state, &run.rows).to_vec();
    same_words("the state", &kept(again), &kept(unbroken))?;
    same_words("the window", &window(again), &window(unbroken))?;
    same_words(
        "the points",
        again.points_held(),
        &unbroken.points_held()[POINT_WORDS * points..],
    )?;
    same_words(
        "the trades",
        again.trades_held(),
        &unbroken.trades_held()[TRADE_WORDS * trades..],
    )
}

/// `unbroken` has seen the first `at` bars, and `image` is its image.
pub fn restart(
    dice: &mut Dice,
    case: &Case,
    at: usize,
    unbroken: &mut Ours,
    image: &[u8],
    tally: &mut Tally,
) -> Outcome {
    let further = &case.bars[at..];
    let mut again = restored(dice, case, further.len(), image)?;
    let before = (
        unbroken.state[state::EQUITY_POINTS] as usize,
        unbroken.state[state::TRADES] as usize,
    );
    same_runs(unbroken, &again, before)?;
    for (i, bar) in further.iter().enumerate() {
        let words = bar_words(bar);
        let answers = (unbroken.step(&words), again.step(&words));
        if answers.0 != answers.1 {
            return Err(format!("bar {i} after the restart: {answers:?}"));
        }
        same_runs(unbroken, &again, before).map_err(|wrong| format!("bar {i} after the restart: {wrong}"))?;
    }
    // The next image is the same one too.
    let next = dumped(dice, &again, tally)?;
    super::same_bytes("the next image", &next, &dumped(dice, unbroken, tally)?)?;
    tally.restarts += 1;
    tally.bars += further.len() as u64;
    tally.trades += again.state[state::TRADES];
    Ok(())
}
