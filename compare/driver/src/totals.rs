//! `driver totals SEED COUNT`: exact totals against a model of request 9, over COUNT trades in random groupings and orders; and damaged
//! totals and lists, with words before and behind that no call may touch.
//!
//! The model adds another way: 67 bins of 32 digits each that carry nothing until the end. Its float is the hardware's rounding of the
//! 64 highest digits, the last of them standing for all below.

use oracle::lists::dice::Dice;
use yshturpa::calls;
use yshturpa::layout::TRADE_WORDS;

use crate::progress::Progress;

const TOTAL_WORDS: usize = 43;
const SUM_WORDS: usize = 34;
const BINS: usize = 2 * SUM_WORDS;
const MOST: u64 = 4_294_967_295;

/// A trade as totals look at it: pnl and reason.
type Trade = (u64, u64);

/// Totals as whole numbers.
#[derive(Clone)]
struct Model {
    counts: [u64; 8],
    bins: [i128; BINS],
}

impl Model {
    fn of(words: &[u64]) -> Self {
        let mut bins = [0; BINS];
        for (i, word) in words[8..42].iter().enumerate() {
            bins[2 * i] = i128::from(word & 0xffff_ffff);
            bins[2 * i + 1] = i128::from(word >> 32);
        }
        Self {
            counts: words[..8].try_into().expect("eight of them"),
            bins,
        }
    }

    fn add(&mut self, (pnl, reason): Trade) {
        self.counts[reason as usize - 1] += 1;
        let x = f64::from_bits(pnl);
        self.counts[6] += u64::from(x > 0.0);
        self.counts[7] += u64::from(x < 0.0);
        let field = pnl >> 52 & 0x7ff;
        let digits = pnl & ((1 << 52) - 1) | if field == 0 { 0 } else { 1 << 52 };
        let place = field.max(1) as usize - 1;
        let whole = u128::from(digits) << (place % 32);
        let sign = if pnl >> 63 == 1 { -1 } else { 1 };
        for part in 0..3 {
            let digit = (whole >> (32 * part) & 0xffff_ffff) as i128;
            if digit != 0 {
                self.bins[place / 32 + part] += sign * digit;
            }
        }
    }

    fn join(&mut self, other: &Model) {
        for (count, more) in self.counts.iter_mut().zip(other.counts) {
            *count += more;
        }
        for (bin, more) in self.bins.iter_mut().zip(other.bins) {
            *bin += more;
        }
    }

    /// The 34 words of the sum.
    fn sum(&self) -> [u64; SUM_WORDS] {
        let mut halves = [0u64; BINS];
        let mut carry = 0i128;
        for (half, bin) in halves.iter_mut().zip(self.bins) {
            let all = bin + carry;
            *half = (all & 0xffff_ffff) as u64;
            carry = all >> 32;
        }
        std::array::from_fn(|i| halves[2 * i] | halves[2 * i + 1] << 32)
    }

    fn words(&self) -> [u64; TOTAL_WORDS] {
        let mut words = [0; TOTAL_WORDS];
        words[..8].copy_from_slice(&self.counts);
        let sum = self.sum();
        words[8..42].copy_from_slice(&sum);
        words[42] = nearest(sum).to_bits();
        words
    }

    fn traded(&self) -> u128 {
        self.counts[..6].iter().map(|count| u128::from(*count)).sum()
    }

    fn fine(&self) -> bool {
        self.counts.iter().all(|count| *count <= MOST) && u128::from(self.counts[6] + self.counts[7]) <= self.traded()
    }
}

/// The float nearest to a sum, in units of 2^-1074.
fn nearest(sum: [u64; SUM_WORDS]) -> f64 {
    if sum[SUM_WORDS - 1] >> 63 == 0 {
        return nearest_size(sum);
    }
    let mut carry = true;
    -nearest_size(sum.map(|word| {
        let (word, over) = (!word).overflowing_add(u64::from(carry));
        carry = over;
        word
    }))
}

fn nearest_size(size: [u64; SUM_WORDS]) -> f64 {
    let unit = f64::from_bits(1);
    let Some(top) = (0..SUM_WORDS).rev().find(|i| size[*i] != 0) else {
        return 0.0;
    };
    let highest = 64 * top + 63 - size[top].leading_zeros() as usize;
    if highest < 53 {
        return size[0] as f64 * unit;
    }
    let digit = |place: usize| size[place / 64] >> (place % 64) & 1;
    let low = (highest + 1).saturating_sub(64);
    let mut head = (low..=highest).rev().fold(0u64, |head, place| head << 1 | digit(place));
    if (0..low).any(|place| digit(place) == 1) {
        head |= 1;
    }
    let scale = low as i32;
    // 2^scale units in two steps, neither of which is inexact unless it passes the largest float
    head as f64 * unit * 2f64.powi(scale / 2) * 2f64.powi(scale - scale / 2)
}

/// A finite float's word: any exponent, subnormal, near one another so that sums cancel, or at the largest.
fn some_pnl(dice: &mut Dice, middle: u64, earlier: &[Trade]) -> u64 {
    let word = match dice.below(10) {
        0..=2 => dice.bits(),
        3 => dice.bits() & 0x800f_ffff_ffff_ffff,
        4 | 5 => (middle + dice.below(60)).min(2046) << 52 | dice.bits() & 0x800f_ffff_ffff_ffff,
        6 => 0x7fe << 52 | dice.bits() & 0x800f_ffff_ffff_ffff,
        7 if !earlier.is_empty() => earlier[dice.below(earlier.len() as u64) as usize].0 ^ 1 << 63,
        8 => dice.bits() & 0x8000_0000_0000_0001,
        _ => dice.span(-1000.0, 1000.0).to_bits(),
    };
    if f64::from_bits(word).is_finite() {
        word
    } else {
        word & !(1 << 52)
    }
}

fn record((pnl, reason): Trade, dice: &mut Dice) -> [u64; TRADE_WORDS] {
    let mut words: [u64; TRADE_WORDS] = std::array::from_fn(|_| dice.bits());
    words[5] = pnl;
    words[7] = reason;
    words
}

/// The words of an answer.
fn refusal(number: u64, place: u64) -> u64 {
    number << 32 | place
}

/// Trades in a random order, cut at random places into lists that go to random totals, which are joined in a random order.
fn in_some_way(trades: &[Trade], dice: &mut Dice) -> Result<Vec<u64>, String> {
    let mut order: Vec<Trade> = trades.to_vec();
    for i in (1..order.len()).rev() {
        order.swap(i, dice.below(i as u64 + 1) as usize);
    }
    let mut all = vec![vec![0; TOTAL_WORDS]; dice.between(1, 4) as usize];
    let mut rest = &order[..];
    while !rest.is_empty() {
        let (list, later) = rest.split_at(dice.between(1, rest.len() as u64) as usize);
        let words: Vec<u64> = list.iter().flat_map(|trade| record(*trade, dice)).collect();
        let to = dice.below(all.len() as u64) as usize;
        let answer = calls::totals(&mut all[to], &words);
        if answer != 0 {
            return Err(format!("ysh_totals answers {answer:x}"));
        }
        rest = later;
    }
    while all.len() > 1 {
        let other = all.swap_remove(dice.below(all.len() as u64) as usize);
        let to = dice.below(all.len() as u64) as usize;
        let answer = calls::totals_join(&mut all[to], &other);
        if answer != 0 {
            return Err(format!("ysh_totals_join answers {answer:x}"));
        }
    }
    Ok(all.swap_remove(0))
}

fn compared(trades: &[Trade], dice: &mut Dice) -> Result<(), String> {
    let mut model = Model::of(&[0; TOTAL_WORDS]);
    for trade in trades {
        model.add(*trade);
    }
    let theirs = model.words();
    for _ in 0..2 {
        let ours = in_some_way(trades, dice)?;
        if ours != theirs {
            return Err(format!("ours {ours:x?}\nthe model's {theirs:x?}"));
        }
    }
    Ok(())
}

/// Totals of any content, most of them with counts that could be.
fn some_totals(dice: &mut Dice) -> Vec<u64> {
    let mut words: Vec<u64> = (0..TOTAL_WORDS).map(|_| dice.bits()).collect();
    for word in &mut words[..8] {
        *word = match dice.below(60) {
            0 => dice.bits(),
            1 => MOST,
            2 => MOST + 1,
            _ => dice.bits() >> dice.between(34, 63),
        };
    }
    if dice.below(4) != 0 {
        words[6] = words[0].min(MOST) / 2;
        words[7] = words[1].min(MOST) / 2;
    }
    if dice.below(8) == 0 {
        words.truncate(dice.below(TOTAL_WORDS as u64) as usize);
    } else if dice.below(8) == 0 {
        words.extend((0..dice.below(5)).map(|_| dice.bits()).collect::<Vec<_>>());
    }
    words
}

/// What a call must answer, and leave in the totals.
fn added(totals: &[u64], list: &[u64]) -> (u64, Vec<u64>) {
    let refused = |number, place| (refusal(number, place), totals.to_vec());
    if totals.len() < TOTAL_WORDS {
        return refused(10, 11);
    }
    let mut model = Model::of(totals);
    if list.len() % TRADE_WORDS != 0 || !model.fine() {
        return refused(13, 0);
    }
    let before = model.traded();
    let trades = list.chunks_exact(TRADE_WORDS).map(|trade| (trade[5], trade[7]));
    for (number, (pnl, reason)) in trades.enumerate() {
        if !(1..=6).contains(&reason) || !f64::from_bits(pnl).is_finite() {
            return refused(17, number as u64);
        }
        model.add((pnl, reason));
    }
    if before + (list.len() / TRADE_WORDS) as u128 > u128::from(MOST) {
        return refused(22, 0);
    }
    let mut after = totals.to_vec();
    after[..TOTAL_WORDS].copy_from_slice(&model.words());
    (0, after)
}

fn joined(totals: &[u64], other: &[u64]) -> (u64, Vec<u64>) {
    let refused = |number, place| (refusal(number, place), totals.to_vec());
    if totals.len() < TOTAL_WORDS {
        return refused(10, 11);
    }
    if other.len() != TOTAL_WORDS {
        return refused(13, 0);
    }
    let (mut model, more) = (Model::of(totals), Model::of(other));
    if !model.fine() || !more.fine() {
        return refused(13, 0);
    }
    if model.traded() + more.traded() > u128::from(MOST) {
        return refused(22, 0);
    }
    model.join(&more);
    let mut after = totals.to_vec();
    after[..TOTAL_WORDS].copy_from_slice(&model.words());
    (0, after)
}

/// A call over damaged words, with three words before and behind what it is lent.
fn damaged(dice: &mut Dice) -> Result<(), String> {
    let totals = some_totals(dice);
    let mut room: Vec<u64> = (0..3).map(|_| dice.bits()).collect();
    room.extend(&totals);
    room.extend((0..3).map(|_| dice.bits()).collect::<Vec<_>>());
    let mut expected = room.clone();
    let lent = 3..3 + totals.len();
    let (answer, wanted) = if dice.below(2) == 0 {
        let mut list: Vec<u64> = Vec::new();
        for _ in 0..dice.below(6) {
            let pnl = if dice.below(12) == 0 {
                dice.bits() | 0x7ff << 52
            } else {
                some_pnl(dice, 1000, &[])
            };
            let reason = match dice.below(24) {
                0 => 0,
                1 => 7,
                2 => dice.bits(),
                3 => 1 << 32 | 1,
                _ => dice.between(1, 6),
            };
            list.extend(record((pnl, reason), dice));
        }
        if dice.below(12) == 0 {
            list.push(dice.bits());
        }
        let (word, after) = added(&totals, &list);
        expected[lent.clone()].copy_from_slice(&after);
        (calls::totals(&mut room[lent], &list), word)
    } else {
        let other = some_totals(dice);
        let (word, after) = joined(&totals, &other);
        expected[lent.clone()].copy_from_slice(&after);
        (calls::totals_join(&mut room[lent], &other), word)
    };
    if answer != wanted {
        return Err(format!("answers {answer:x}, the model {wanted:x}, for {totals:x?}"));
    }
    if room != expected {
        return Err(format!("leaves {room:x?}\nthe model {expected:x?}"));
    }
    Ok(())
}

pub fn totals(seed: u64, count: u64) -> bool {
    let dice = &mut Dice::new(seed);
    let mut progress = Progress::new("totals", count);
    let (mut trades, mut lists, mut calls) = (0, 0, 0u64);
    while trades < count {
        let middle = dice.below(2046);
        let mut list: Vec<Trade> = Vec::new();
        for _ in 0..dice.below(40) {
            let pnl = some_pnl(dice, middle, &list);
            list.push((pnl, dice.between(1, 6)));
        }
        let checked = compared(&list, dice).and_then(|()| (0..4).try_for_each(|_| damaged(dice)));
        trades += list.len() as u64;
        lists += 1;
        calls += 4;
        if let Err(what) = checked {
            println!("{what}\nthe trades {list:x?}");
            println!("totals: seed {seed}, {trades} trades compared, 1 differs");
            return false;
        }
        progress.at(trades, String::new);
    }
    println!(
        "totals: seed {seed}, {trades} trades in {lists} lists, each in two ways, and {calls} damaged calls, 0 differ"
    );
    true
}
