//! Two runs compared: a line for each difference, and none for what is equal.

use yshturpa::{compare, Difference, Point, Reason, Trade, Two};

fn trade(pnl: f64, worst: f64) -> Trade {
    Trade {
        entry_time: 0,
        exit_time: 1,
        entry_price: 1.0,
        exit_price: 2.0,
        qty: 1.0,
        pnl,
        return_pct: 0.0,
        reason: Reason::Signal,
        funding: 0.0,
        worst,
    }
}

fn point(time: i64, equity: f64) -> Point {
    Point { time, equity }
}

fn bits(first: f64, second: f64) -> Two {
    Two { first: first.to_bits(), second: second.to_bits() }
}

#[test]
fn equal_runs_have_no_lines_and_times_of_points_are_not_compared() {
    let trades = [trade(1.0, 2.0), trade(-1.0, 0.5)];
    assert_eq!(compare((&[point(1, 5.0)], &trades), (&[point(2, 5.0)], &trades)), Ok(vec![]));
    assert_eq!(compare((&[], &[]), (&[], &[])), Ok(vec![]));
}

#[test]
fn every_difference_has_its_line_and_no_other_has() {
    let ours = (&[point(1, 5.0), point(2, 6.0), point(3, 7.0)][..], &[trade(1.0, 2.0), trade(0.0, 3.0)][..]);
    let theirs = (&[point(1, 5.0), point(2, 6.5)][..], &[trade(1.0, 2.0), trade(-0.0, 4.0), trade(9.0, 9.0)][..]);
    let lines = vec![
        Difference::Equity { point: 1, words: bits(6.0, 6.5) },
        Difference::Trade { trade: 1, word: 5, words: bits(0.0, -0.0) },
        Difference::Trade { trade: 1, word: 9, words: bits(3.0, 4.0) },
        Difference::MoreTrades { from: 2, counts: Two { first: 2, second: 3 } },
        Difference::MorePoints { from: 2, counts: Two { first: 3, second: 2 } },
    ];
    assert_eq!(compare(ours, theirs), Ok(lines));
}
