//! The caller's side of an account: how it begins, stops, goes on and is damaged, and the Rust that runs beside it.

use oracle::lists::dice::Dice;
use oracle::lists::runs::Bar;
use oracle::Reading;
use yshturpa::calls;
use yshturpa::layout::{POINT_WORDS, STATE_WORDS, TRADE_WORDS};

use super::lent::{Held, Kept, Rooms};
use super::model::stops;
use super::Tally;
use crate::case::{setting_words, Case};
use crate::compare::explain;
use crate::guard::{damage, nested};
use crate::ours::{translated, view_of};
use crate::records::row_words;
use crate::theirs::Theirs;
use crate::view::{unlike, NAMES};

/// What rooms hold before a run.
const UNTOUCHED: u64 = 0x5a5a_a5a5_5a5a_a5a5;

pub struct Member {
    case: Case,
    /// Until it takes a bar that the Rust has no rule for.
    rust: Option<Theirs>,
    /// Whether the sign of a zero has parted the two (docs/DIFFERENCES.md, 6).
    signs: bool,
    /// The call with which it joins.
    joins: u64,
    /// What was there before the damage that it has now.
    whole: Option<Kept>,
}

fn junk(words: usize) -> Vec<u64> {
    vec![UNTOUCHED; words]
}

impl Member {
    /// An account with places for the rows of its window, and for the points and trades of so many bars or of a few.
    pub fn begin(dice: &mut Dice, case: Case, bars: usize, rooms: &mut Rooms) -> Self {
        let table = case.table.bytes();
        let width = row_words(case.table.slots);
        let mut part = |width: usize| dice.below(width as u64) as usize;
        let rows = case.settings.depth * width + part(3 * width);
        let (point, trade) = (part(POINT_WORDS), part(TRADE_WORDS));
        let few = |dice: &mut Dice| if dice.percent(6) { dice.below(20) as usize } else { bars };
        rooms.table.fill(&table);
        rooms.settings.fill(&setting_words(&case.settings));
        rooms.entry.fill(&translated(&table, 0).expect("an accepted table"));
        rooms.exit.fill(&translated(&table, 1).expect("an accepted table"));
        rooms.rows.fill(&junk(rows));
        rooms.equity.fill(&junk(few(dice) * POINT_WORDS + point));
        rooms.trades.fill(&junk((few(dice) + 1) * TRADE_WORDS + trade));
        let mut state = junk(STATE_WORDS);
        assert_eq!(calls::fresh(&rooms.settings.content, &mut state), 0);
        rooms.state.fill(&state);
        let joins = if dice.percent(12) { dice.between(1, 4) } else { 0 };
        rooms
            .status
            .fill(&[if joins > 0 { 1 + dice.below(99) } else { 0 }, dice.bits(), dice.bits()]);
        Self {
            rust: Some(Theirs::new(&case, Reading::Paper)),
            case,
            signs: false,
            joins,
            whole: None,
        }
    }

    /// Before a call: what was damaged is mended, who waits joins, who was stopped may go on, and some are damaged.
    pub fn before(&mut self, dice: &mut Dice, rooms: &mut Rooms, call: u64) {
        if let Some(whole) = self.whole.take() {
            rooms.put_back(&whole);
        }
        let stopped = rooms.status.content[0] != 0;
        if call == self.joins || stopped && call > self.joins && dice.percent(40) {
            rooms.status.content[0] = 0;
            // One that has run out of places gets more.
            rooms.equity.content.extend(junk(dice.below(60) as usize));
            rooms.trades.content.extend(junk(dice.below(60) as usize));
        }
        if dice.percent(10) {
            self.whole = Some(rooms.keep());
            damaged(dice, rooms);
        }
    }

    /// A bar of this account by itself was done, or refused; the Rust does the same.
    pub fn saw(&mut self, bar: &Bar, told: Result<&Held, u64>, tally: &mut Tally) -> Result<(), String> {
        if let Err(refused) = told {
            tally.stopped(refused);
            if !stops(refused) {
                return Err(format!("an account is stopped with {refused:x}"));
            }
        }
        if self.whole.is_some() && told.is_ok() {
            self.rust = None;
        }
        let Some(rust) = &mut self.rust else {
            return Ok(());
        };
        let bar = Bar {
            slots: bar.slots[..self.case.table.slots.min(bar.slots.len())].to_vec(),
            ..bar.clone()
        };
        let away = rust.is_turned_away(&bar);
        match told {
            Ok(_) if away => Err("a bar is done that is of too many lots".into()),
            Ok(held) => {
                rust.step(&bar).expect("the paper's reading refuses no bar");
                tally.with_rust += 1;
                self.agree(&bar, held)
            }
            Err(refused) if self.whole.is_none() && refused >> 32 == 16 && !away => {
                Err("a bar is refused with 16 that is not of too many lots".into())
            }
            Err(_) => Ok(()),
        }
    }

    /// Nothing parts the account from the Rust but, by entry 6 of docs/DIFFERENCES.md, signs of zeros.
    fn agree(&mut self, bar: &Bar, held: &Held) -> Result<(), String> {
        let rust = self.rust.as_ref().expect("asked of an account with the Rust beside it");
        let view = view_of(&held.state, &held.equity, &held.trades);
        let parted = unlike(&NAMES, &view.0, &rust.view().0);
        if parted.is_empty() {
            return Ok(());
        }
        self.signs |= explain::has_a_zero_price(bar);
        match self.signs && explain::are_zero_signs(&parted) {
            true => Ok(()),
            false => Err(format!("differs from the Rust: {parted:x?}")),
        }
    }
}

/// One damage to what an account is handed or lent.
pub fn damaged(dice: &mut Dice, rooms: &mut Rooms) {
    match dice.below(24) {
        0..=4 => damage::content(dice, &mut rooms.table),
        5 if dice.percent(30) => rooms.table.fill(&nested(dice)),
        5 => damage::length(dice, &mut rooms.table),
        6..=9 => damage::content(dice, &mut rooms.settings),
        10 => damage::length(dice, &mut rooms.settings),
        11 | 12 => damage::content(dice, &mut rooms.entry),
        13 => damage::content(dice, &mut rooms.exit),
        14 => damage::length(dice, &mut rooms.entry),
        15..=17 => damage::content(dice, &mut rooms.state),
        18 => damage::length(dice, &mut rooms.state),
        19 => damage::length(dice, &mut rooms.rows),
        20 => damage::length(dice, &mut rooms.equity),
        21 => damage::length(dice, &mut rooms.trades),
        22 => damage::content(dice, &mut rooms.status),
        _ => damage::length(dice, &mut rooms.exit),
    }
}
