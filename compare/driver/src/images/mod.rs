//! `driver images SEED COUNT`: images of random states, at random bars of the driver's random runs.
//!
//! Each is dumped in random stretches and must be, byte for byte, what a model written from request 11 says; cut after a byte it must be
//! refused; damaged it must be refused or read as the model says; each part of it must be that stretch of it; and the run that goes on from it
//! must go on as the unbroken one does.
//! Every room that is lent stands between guards.

mod cut;
mod damaged;
mod lent;
mod parts;
mod restart;

use oracle::lists::dice::Dice;
use yshturpa::layout::state;
use yshturpa::{calls, Refusal};

use crate::case::{bar_words, Case};
use crate::cases;
use crate::model::image;
use crate::ours::Ours;
use crate::progress::Progress;
use lent::Area;

/// What differs.
type Outcome<T = ()> = Result<T, String>;

/// How much was compared.
#[derive(Default)]
pub struct Tally {
    images: u64,
    /// Images with an open position, with a working order of each kind, and with fewer rows than D.
    open: u64,
    orders: [u64; 4],
    partly: u64,
    stretches: u64,
    /// Parts, and damaged ones by their answer's number.
    parts: u64,
    refused_parts: [u64; 21],
    /// Images cut after every byte, images cut after random ones, and cuts.
    small: u64,
    large: u64,
    cuts: u64,
    /// Restarts, their further bars, and the trades that these closed.
    restarts: u64,
    bars: u64,
    trades: u64,
    /// Damaged restores and dumps by their answer's number, 0 for work done.
    restores: [u64; 21],
    dumps: [u64; 21],
}

fn need(right: bool, what: impl FnOnce() -> String) -> Outcome {
    right.then_some(()).ok_or_else(what)
}

fn same<T: PartialEq + std::fmt::LowerHex>(what: &str, ours: T, model: T) -> Outcome {
    need(ours == model, || format!("{what}: ours {ours:x}, to be {model:x}"))
}

fn same_words(what: &str, ours: &[u64], model: &[u64]) -> Outcome {
    same(what, ours.len(), model.len())?;
    match ours.iter().zip(model).position(|(a, b)| a != b) {
        None => Ok(()),
        Some(at) => same(&format!("{what}, word {at}"), ours[at], model[at]),
    }
}

fn same_bytes(what: &str, ours: &[u8], model: &[u8]) -> Outcome {
    same(what, ours.len(), model.len())?;
    match ours.iter().zip(model).position(|(a, b)| a != b) {
        None => Ok(()),
        Some(at) => same(&format!("{what}, byte {at}"), ours[at], model[at]),
    }
}

/// A run whose supply fails after some of its bars, in a row room of D rows or more.
fn some_run(dice: &mut Dice, case: &Case, spare: usize, bars: usize) -> Outcome<Ours> {
    let rows = case.settings.depth + dice.pick(&[0, 0, 1, spare]);
    let mut run = Ours::new(case, rows).map_err(|refusal| format!("a fresh run: {refusal:?}"))?;
    for bar in &case.bars[..bars] {
        match run.step(&bar_words(bar)) {
            Ok(()) | Err(Refusal { number: 16, .. }) => {}
            Err(refusal) => return Err(format!("a bar: {refusal:?}")),
        }
    }
    Ok(run)
}

/// The image, dumped in random stretches into a cleared area that may be longer.
fn dumped(dice: &mut Dice, run: &Ours, tally: &mut Tally) -> Outcome<Vec<u8>> {
    let model = image::image(&run.settings, &run.state, &run.rows);
    let size = model.len();
    let bytes = calls::dump_bytes(run.settings[0], run.settings[1]);
    same("the size of an image", bytes, size as u64)?;
    let longer = dice.pick(&[0, 0, 1, 7, 64]);
    let mut area = Area::cleared(size, longer);
    let stretches = dice.between(1, 6);
    let mut ends: Vec<usize> = (1..stretches).map(|_| dice.below(size as u64 + 1) as usize).collect();
    // The last stretch may ask for more than there is.
    ends.push(size + dice.pick(&[0, 0, 1, 1_000]));
    ends.sort_unstable();
    for &end in &ends {
        area.write(run, &model, end)?;
        area.is_as_modelled()?;
    }
    tally.stretches += stretches;
    same_bytes("the image", area.image(), &model)?;
    Ok(model)
}

fn count(run: &Ours, tally: &mut Tally) {
    let state = &run.state;
    tally.images += 1;
    tally.open += u64::from(f64::from_bits(state[state::QTY]).abs() > f64::EPSILON);
    if state[state::ORDER] != 0 {
        tally.orders[state[state::ORDER_KIND] as usize] += 1;
    }
    tally.partly += u64::from(state[state::ROWS_HELD] < run.settings[1]);
}

fn one(seed: u64, number: u64, tally: &mut Tally) -> Outcome {
    let (case, plan) = cases::some_case(seed, number);
    let dice = &mut Dice::new(seed.rotate_left(32) ^ number.wrapping_mul(0x2545_f491_4f6c_dd1d));
    let at = dice.below(case.bars.len() as u64 + 1) as usize;
    let mut run = some_run(dice, &case, plan.spare, at)?;
    let image = dumped(dice, &run, tally)?;
    count(&run, tally);
    cut::cut(dice, &run, &image, tally)?;
    damaged::damaged(dice, &run, &image, tally)?;
    parts::parts(dice, &run, &image, tally)?;
    restart::restart(dice, &case, at, &mut run, &image, tally)
}

fn by_number(answers: &[u64]) -> String {
    let met = answers.iter().enumerate().filter(|(_, &count)| count > 0);
    let texts: Vec<String> = met.map(|(number, count)| format!("{number}: {count}")).collect();
    texts.join(", ")
}

impl Tally {
    fn print(&self) {
        let [market, limit, stop, stop_limit] = self.orders;
        println!(
            "images with an open position: {}; with a working order: market or exit {market}, limit {limit}, stop {stop}, stop-limit \
             {stop_limit}; with fewer rows than D: {}; written in {} stretches",
            self.open, self.partly, self.stretches
        );
        println!(
            "cut after every byte: {} images, after 1,000 random ones: {}; cuts {}, each refused with 19",
            self.small, self.large, self.cuts
        );
        println!(
            "restarts {}: {} further bars, {} trades",
            self.restarts, self.bars, self.trades
        );
        println!("damaged restores by answer (0: done): {}", by_number(&self.restores));
        println!("damaged dumps by answer (0: done): {}", by_number(&self.dumps));
        println!(
            "parts {}, each that stretch of its image; damaged by answer (0: done): {}",
            self.parts,
            by_number(&self.refused_parts)
        );
    }
}

/// Compares `count` images; whether all agree.
pub fn images(seed: u64, count: u64) -> bool {
    let mut tally = Tally::default();
    let mut progress = Progress::new("images", count);
    for number in 0..count {
        if let Err(wrong) = one(seed, number, &mut tally) {
            println!("image {number}: {wrong}");
            println!("images: seed {seed}, {number} images, 1 differs");
            return false;
        }
        progress.at(number + 1, || format!("{} cuts", tally.cuts));
    }
    tally.print();
    let calls = tally
        .restores
        .iter()
        .chain(&tally.dumps)
        .chain(&tally.refused_parts)
        .sum::<u64>();
    println!(
        "images: seed {seed}, {} images, {} cuts, {} restarts, {calls} damaged, 0 differ",
        tally.images, tally.cuts, tally.restarts
    );
    true
}
