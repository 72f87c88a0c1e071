//! The high and the low of a stretch of a year of minutes: by blocks, by a plain loop, and by a sparse table.

use std::hint::black_box;

use oracle::lists::dice::Dice;
use yshturpa::calls;

use super::timing::{by_turns, each, nanoseconds, side};
use crate::stretches::model::{block_words, plain_loop};

/// Minutes of a year and of a day.
const YEAR: usize = 525_600;
const DAY: usize = 1_440;
const QUESTIONS: usize = 64;
/// How often each question is asked in a block: but for the first time with what it reads in the caches.
const TIMES: usize = 16;
const FEW: usize = 2;

fn closes() -> Vec<u64> {
    let dice = &mut Dice::new(1);
    let mut at = 10_000.0;
    (0..YEAR)
        .map(|_| {
            at *= dice.span(0.999, 1.001);
            f64::to_bits(at)
        })
        .collect()
}

/// The textbook's answer: for each bar and each power of two the bars of the high and the low of so many from it on.
struct Sparse {
    levels: Vec<Vec<[u32; 2]>>,
}

impl Sparse {
    fn better(closes: &[u64], [h, l]: [u32; 2], [i, m]: [u32; 2]) -> [u32; 2] {
        let close = |bar: u32| f64::from_bits(closes[bar as usize]);
        [
            if close(i) > close(h) { i } else { h },
            if close(m) < close(l) { m } else { l },
        ]
    }

    fn new(closes: &[u64]) -> Self {
        let mut levels = vec![(0..closes.len() as u32).map(|bar| [bar, bar]).collect::<Vec<_>>()];
        let mut span = 1;
        while 2 * span <= closes.len() {
            let below = levels.last().expect("a first level");
            let next = (0..=closes.len() - 2 * span).map(|bar| Self::better(closes, below[bar], below[bar + span]));
            let next = next.collect();
            levels.push(next);
            span *= 2;
        }
        Self { levels }
    }

    fn ask(&self, closes: &[u64], first: usize, last: usize) -> [u64; 4] {
        let level = (last + 1 - first).ilog2() as usize;
        let of = &self.levels[level];
        let [h, l] = Self::better(closes, of[first], of[last + 1 - (1 << level)]);
        [closes[h as usize], u64::from(h), closes[l as usize], u64::from(l)]
    }

    fn bytes(&self) -> usize {
        self.levels.iter().map(|level| 8 * level.len()).sum()
    }
}

/// Stretches of so many bars, at places of chance.
fn questions(bars: usize) -> Vec<(usize, usize)> {
    let dice = &mut Dice::new(2);
    let first = |dice: &mut Dice| dice.below((YEAR - bars + 1) as u64) as usize;
    (0..QUESTIONS)
        .map(|_| {
            let first = first(dice);
            (first, first + bars - 1)
        })
        .collect()
}

pub fn bench() {
    let given = closes();
    let (mut room, mut blocks, mut held) = (vec![0; YEAR], vec![0; block_words(YEAR as u64) as usize], 0);
    let append = each(YEAR, || {
        held = 0;
        for &close in &given {
            assert_eq!(calls::append(&mut held, close, &mut room, &mut blocks), 0);
        }
    });
    let sparse = Sparse::new(&given);
    println!("## High and low of a stretch\n");
    println!(
        "Of a year of minutes, {YEAR} closes. An append takes {} ns.\n",
        nanoseconds(append)
    );
    println!("| bars asked for | by blocks, ns | plain loop, ns | blocks / loop | sparse table, ns |");
    println!("|---|---|---|---|---|");
    for bars in [1, 60, DAY, 30 * DAY, YEAR] {
        let asked = questions(bars);
        let [mut high, mut high_bar, mut low, mut low_bar] = [0; 4];
        // A block of a plain loop over few bars is all questions, so that it is not too short to be measured.
        let plain_ones = &asked[..if bars > DAY { FEW } else { QUESTIONS }];
        let [ours, plain, table] = by_turns([
            side(TIMES * QUESTIONS, || {
                for &(first, last) in black_box(&asked).iter().cycle().take(TIMES * QUESTIONS) {
                    calls::stretch(
                        held,
                        first as u64,
                        last as u64,
                        &room,
                        &blocks,
                        black_box(&mut high),
                        &mut high_bar,
                        &mut low,
                        &mut low_bar,
                    );
                }
            }),
            side(plain_ones.len(), || {
                for &(first, last) in black_box(plain_ones) {
                    black_box(plain_loop(&given, first, last));
                }
            }),
            side(TIMES * QUESTIONS, || {
                for &(first, last) in black_box(&asked).iter().cycle().take(TIMES * QUESTIONS) {
                    black_box(sparse.ask(&given, first, last));
                }
            }),
        ]);
        println!(
            "| {bars} | {} | {} | 1/{:.1} | {} |",
            nanoseconds(ours),
            nanoseconds(plain),
            plain / ours,
            nanoseconds(table)
        );
    }
    println!(
        "\nBytes beside the closes ({}): blocks {}, sparse table {}.\n",
        8 * YEAR,
        8 * blocks.len(),
        sparse.bytes()
    );
}
