//! Two runs compared: all that differs, and nothing else.

use crate::layout::DIFFERENCE_WORDS;
use crate::{calls, Point, Refusal, Trade};

/// What the first run has, and what the second.
#[derive(Clone, Copy, Debug, PartialEq, Eq)]
pub struct Two {
    pub first: u64,
    pub second: u64,
}

/// One line of what differs.
#[derive(Clone, Copy, Debug, PartialEq, Eq)]
pub enum Difference {
    /// The first point that both have whose equity differs, and the words of both.
    Equity { point: usize, words: Two },
    /// A word, 0 to 9, of a trade that both have, and what it is in both.
    Trade { trade: usize, word: usize, words: Two },
    /// From this trade on one run alone has trades; how many each has.
    MoreTrades { from: usize, counts: Two },
    /// From this point on one run alone has points; how many each has.
    MorePoints { from: usize, counts: Two },
}

impl Difference {
    fn of_words(line: &[u64]) -> Difference {
        let number = line[1] as usize;
        let two = Two { first: line[3], second: line[4] };
        match line[0] {
            1 => Difference::Equity { point: number, words: two },
            2 => Difference::Trade { trade: number, word: line[2] as usize, words: two },
            3 => Difference::MoreTrades { from: number, counts: two },
            _ => Difference::MorePoints { from: number, counts: two },
        }
    }
}

/// What differs between two runs, each its points and its trades: by sort, and the words of trades in their order. Words are
/// compared, not floats, and the times of points are not.
pub fn compare(first: (&[Point], &[Trade]), second: (&[Point], &[Trade])) -> Result<Vec<Difference>, Refusal> {
    let points = |run: &[Point]| run.iter().flat_map(Point::words).collect::<Vec<u64>>();
    let trades = |run: &[Trade]| run.iter().flat_map(Trade::words).collect::<Vec<u64>>();
    compare_words((&points(first.0), &trades(first.1)), (&points(second.0), &trades(second.1)))
}

/// The same of points and trades in their words. Room for lines is made as there are lines, so runs that are equal take little.
pub fn compare_words(first: (&[u64], &[u64]), second: (&[u64], &[u64])) -> Result<Vec<Difference>, Refusal> {
    let most = first.1.len().min(second.1.len()) + OTHERS;
    let mut room = most.min(FEW);
    loop {
        let (mut lines, mut count) = (vec![0; DIFFERENCE_WORDS * room], 0);
        match Refusal::of(calls::compare(first.0, first.1, second.0, second.1, &mut lines, &mut count)) {
            Err(Refusal { number: NO_ROOM, .. }) if room < most => room = room.saturating_mul(8).min(most),
            answer => {
                answer?;
                let lines = lines.chunks_exact(DIFFERENCE_WORDS).take(count as usize);
                return Ok(lines.map(Difference::of_words).collect());
            }
        }
    }
}

/// Lines that are of no word of a trade, at most; lines that there is room for at first; the refusal of a room that is too small.
const OTHERS: usize = 3;
const FEW: usize = 1024;
const NO_ROOM: u32 = 10;
