//! Streams of bars, good and bad, and the calls that they are handed over in.

use oracle::lists::dice::Dice;
use oracle::lists::orders::around_levels;
use oracle::lists::runs::Bar;
use oracle::spec::OrderType;

use super::lent::Lent;
use super::members::{damaged, Member};
use super::model;
use super::Tally;
use crate::case::{bar_words, Case};
use crate::cases;
use crate::guard::damage;
use crate::model::refusals;

const MOST_SLOTS: usize = 64;
/// Calls over one stream at most, and damaged ones beside each.
const MOST_CALLS: u64 = 24;
const DAMAGED: u64 = 3;
/// Bars of a damaged call at most.
const FEW: usize = 12;

/// A bar as the stream is handed it: its words, and the bar that they are; none where the stream is to refuse it.
struct Fed {
    words: Vec<u64>,
    bar: Option<usize>,
}

pub struct Stream {
    bars: Vec<Bar>,
    fed: Vec<Fed>,
    members: [Member; 4],
    lent: Lent,
}

/// As many slots as the accounts have, or more, or not enough for one of them.
fn some_slots(dice: &mut Dice, cases: &[Case]) -> usize {
    let most = cases.iter().map(|case| case.table.slots).max().unwrap_or(0);
    let slots = match dice.below(20) {
        0..=9 => most,
        10..=15 => most + dice.between(1, 5) as usize,
        16..=18 => most + dice.below(64) as usize,
        _ => dice.below(most as u64 + 1) as usize,
    };
    slots.min(MOST_SLOTS)
}

/// A bar that the stream has to refuse: a price, a slot or the funding no number, or a slot that is not there.
fn spoiled(dice: &mut Dice, bar: &[u64], slots: usize) -> Vec<u64> {
    let mut words = bar.to_vec();
    let bad = dice.pick(&[f64::NAN, f64::INFINITY, f64::NEG_INFINITY]).to_bits();
    match dice.below(4) {
        0 if slots > 0 => {
            let slot = dice.below(slots as u64) as usize;
            words[6] |= 1 << slot;
            words[7 + slot] = bad;
        }
        1 if slots < MOST_SLOTS => words[6] |= 1 << dice.between(slots as u64, 63),
        2 => {
            words[7 + slots] = 1 + dice.below(9);
            words[8 + slots + dice.below(2) as usize] = bad;
        }
        _ => words[1 + dice.below(5) as usize] = bad,
    }
    words
}

fn fed(dice: &mut Dice, bars: &[Bar], slots: usize) -> Vec<Fed> {
    let bad = dice.pick(&[0, 0, 1, 10]);
    let mut all = Vec::new();
    for (number, bar) in bars.iter().enumerate() {
        let words = bar_words(bar);
        if dice.percent(bad) {
            let words = spoiled(dice, &words, slots);
            assert!(refusals::bar(&words, slots, 0).is_err());
            all.push(Fed { words, bar: None });
        }
        all.push(Fed {
            words,
            bar: Some(number),
        });
    }
    all
}

impl Stream {
    pub fn some(dice: &mut Dice) -> Self {
        let cases = [(); 4].map(|()| cases::some_account(dice));
        let slots = some_slots(dice, &cases);
        let count = dice.between(8, 120) as usize;
        let funding = cases.iter().any(|case| case.settings.funding);
        let mut bars = cases::some_bars(dice, count, slots, funding);
        let waits = cases.iter().find(|case| case.settings.order_type != OrderType::Market);
        if let (Some(case), true) = (waits, dice.percent(50)) {
            around_levels(dice, &case.settings, &mut bars);
        }
        let mut lent = Lent::default();
        let begun = dice.pick(&[0, 0, 0, 0, 1, 17, 4_294_967_000, 4_294_967_200]);
        lent.stream.fill(&[slots as u64, begun]);
        let mut rooms = lent.accounts.iter_mut();
        let members = cases.map(|case| Member::begin(dice, case, count, rooms.next().expect("four rooms")));
        Self {
            fed: fed(dice, &bars, slots),
            bars,
            members,
            lent,
        }
    }

    /// Hands over `count` records from number `from` on.
    fn hand(&mut self, from: usize, count: usize) {
        let words: Vec<u64> = self.fed[from..from + count]
            .iter()
            .flat_map(|fed| fed.words.clone())
            .collect();
        self.lent.bars.fill(&words);
    }

    /// One call with the next records: how many the stream is done with.
    fn call(&mut self, from: usize, count: usize, tally: &mut Tally) -> Result<usize, String> {
        self.hand(from, count);
        let (fed, bars, members) = (&self.fed, &self.bars, &mut self.members);
        let after = model::after(&self.lent, &mut |account, i, told| {
            let bar = fed[from + i]
                .bar
                .ok_or("an account is handed a bar that the stream refuses")?;
            let saw = members[account].saw(&bars[bar], told, tally);
            saw.map_err(|what| format!("account {account}, record {}: {what}", from + i))
        })?;
        let told = self.lent.call(&after);
        tally.called(after.answer, after.done);
        told?;
        self.lent.go_on(&after);
        Ok(after.done as usize + usize::from(after.answer >> 32 == 11))
    }

    /// A call with things damaged in it; all is put back behind it.
    fn damaged_call(&mut self, dice: &mut Dice, tally: &mut Tally) -> Result<(), String> {
        let kept = self.lent.accounts.each_ref().map(|rooms| rooms.keep());
        let stream = self.lent.stream.content.clone();
        let count = (dice.below(FEW as u64 + 1) as usize).min(self.fed.len());
        let from = dice.below((self.fed.len() - count) as u64 + 1) as usize;
        self.hand(from, count);
        for rooms in &mut self.lent.accounts {
            rooms.status.content[0] *= u64::from(dice.percent(30));
        }
        for _ in 0..dice.between(1, 3) {
            let account = &mut self.lent.accounts[dice.below(4) as usize];
            match dice.below(16) {
                0 => damage::content(dice, &mut self.lent.stream),
                1 => damage::length(dice, &mut self.lent.stream),
                2 => damage::content(dice, &mut self.lent.bars),
                3 => damage::length(dice, &mut self.lent.bars),
                4 => damage::length(dice, &mut account.status),
                _ => damaged(dice, account),
            }
        }
        let after = model::after(&self.lent, &mut |_, _, told| {
            told.err().into_iter().for_each(|refused| tally.stopped(refused));
            Ok(())
        })?;
        self.lent.call(&after)?;
        tally.damaged += 1;
        tally.answers[(after.answer >> 32) as usize] += 1;
        self.lent.stream.fill(&stream);
        for (rooms, kept) in self.lent.accounts.iter_mut().zip(&kept) {
            rooms.put_back(kept);
        }
        Ok(())
    }

    /// The whole stream, in calls of any length.
    pub fn run(mut self, dice: &mut Dice, tally: &mut Tally) -> Result<(), String> {
        let mut at = 0;
        for call in 0..MOST_CALLS {
            if at == self.fed.len() {
                break;
            }
            for (member, rooms) in self.members.iter_mut().zip(&mut self.lent.accounts) {
                member.before(dice, rooms, call);
            }
            let left = self.fed.len() - at;
            let count = match dice.below(8) {
                0 => 0,
                1 => 1,
                2 | 3 => left,
                _ => dice.below(left as u64 + 1) as usize,
            };
            at += self.call(at, count, tally)?;
            for _ in 0..DAMAGED {
                self.damaged_call(dice, tally)?;
            }
        }
        tally.streams += 1;
        Ok(())
    }
}
