//! High and low of stretches of closes against reading every close, and what is refused.

use dice::Dice;
use yshturpa::{Closes, Error, Refusal, Stretch};

/// Closes that repeat, so that the earliest bar matters; zeros of both signs among them.
fn closes(count: u64) -> Vec<f64> {
    let mut dice = Dice(7);
    let next = |_| match dice.below(16) {
        0 => -0.0,
        1 => 0.0,
        _ => dice.below(101) as f64 - 50.0,
    };
    (0..count).map(next).collect()
}

/// Every close of a stretch, one after another; a later one takes the place only if strictly greater, or less.
fn by_reading(closes: &[f64], first: usize, last: usize) -> Stretch {
    let start = Stretch { high: closes[first], high_bar: first as u64, low: closes[first], low_bar: first as u64 };
    (first..=last).fold(start, |mut best, bar| {
        if closes[bar] > best.high {
            (best.high, best.high_bar) = (closes[bar], bar as u64);
        }
        if closes[bar] < best.low {
            (best.low, best.low_bar) = (closes[bar], bar as u64);
        }
        best
    })
}

fn refusal(number: u32, place: u32) -> Option<Error> {
    Some(Error::Refused(Refusal { number, place }))
}

#[test]
fn a_stretch_is_what_reading_every_close_gives() {
    let closes = closes(1000);
    let mut held = Closes::new();
    assert!(held.is_empty());
    for (count, close) in closes.iter().enumerate() {
        held.append(*close).unwrap();
        assert_eq!(held.len(), count as u64 + 1);
        // The newest bar belongs to its block at once.
        assert_eq!(held.stretch(0, count as u64), Ok(by_reading(&closes, 0, count)));
    }
    for first in (0..1000).step_by(7) {
        for last in (first..1000).step_by(3) {
            let found = held.stretch(first as u64, last as u64).unwrap();
            let read = by_reading(&closes, first, last);
            assert_eq!(found, read, "{first} to {last}");
            // Of +0.0 and -0.0, which are equal, the earlier one's own word.
            assert_eq!((found.high.to_bits(), found.low.to_bits()), (read.high.to_bits(), read.low.to_bits()));
        }
    }
}

#[test]
fn what_is_not_there_is_refused_and_changes_nothing() {
    let mut held = Closes::new();
    assert_eq!(held.stretch(0, 0).err(), refusal(18, 0));
    for close in [1.0, 3.0, 2.0] {
        held.append(close).unwrap();
    }
    for bad in [f64::NAN, f64::INFINITY, f64::NEG_INFINITY] {
        assert_eq!(held.append(bad).err(), refusal(11, 3));
    }
    assert_eq!(held.len(), 3);
    assert_eq!(held.stretch(0, 2), Ok(Stretch { high: 3.0, high_bar: 1, low: 1.0, low_bar: 0 }));
    for (first, last) in [(1, 0), (0, 3), (3, 3), (0, u64::MAX)] {
        assert_eq!(held.stretch(first, last).err(), refusal(18, 0), "{first} to {last}");
    }
}
