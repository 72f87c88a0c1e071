//! Exact totals: three trades whose float sum depends on the order, in two groupings; and what is refused.

use yshturpa::{Reason, Totals, Trade};

fn trade(pnl: f64, reason: Reason) -> Trade {
    Trade {
        entry_time: 0,
        exit_time: 1,
        entry_price: 1.0,
        exit_price: 2.0,
        qty: 1.0,
        pnl,
        return_pct: 0.0,
        reason,
        funding: 0.0,
        worst: 1.0,
    }
}

#[test]
fn the_order_of_the_trades_does_not_matter() {
    let large = 2f64.powi(53);
    let three = [trade(large, Reason::Signal), trade(1.0, Reason::Signal), trade(-large, Reason::StopLoss)];
    assert_eq!(large + 1.0 - large, 0.0);
    assert_eq!(large - large + 1.0, 1.0);

    let mut one = Totals::default();
    one.add(&three).unwrap();

    let mut first = Totals::default();
    first.add(&three[2..]).unwrap();
    let mut second = Totals::default();
    second.add(&three[1..2]).unwrap();
    second.add(&three[..1]).unwrap();
    first.join(&second).unwrap();

    assert_eq!(one, first);
    assert_eq!(one.pnl(), 1.0);
    assert_eq!((one.trades(), one.wins(), one.losses()), (3, 2, 1));
    assert_eq!((one.ended_by(Reason::Signal), one.ended_by(Reason::StopLoss), one.ended_by(Reason::End)), (2, 1, 0));
}

#[test]
fn a_refused_list_changes_nothing() {
    let mut totals = Totals::default();
    totals.add(&[trade(1.5, Reason::End)]).unwrap();
    let before = totals;
    let refusal = totals.add(&[trade(2.0, Reason::End), trade(f64::NAN, Reason::End)]).unwrap_err();
    assert_eq!((refusal.number, refusal.place), (17, 1));
    assert_eq!(totals, before);
}

#[test]
fn totals_that_no_call_wrote_are_refused() {
    let mut words = [0; 43];
    words[6] = 1;
    let refusal = Totals::of_words(words).add(&[]).unwrap_err();
    assert_eq!((refusal.number, refusal.place), (13, 0));

    words[0] = 1 << 31;
    let half = Totals::of_words(words);
    let mut totals = half;
    let refusal = totals.join(&half).unwrap_err();
    assert_eq!((refusal.number, refusal.place), (22, 0));
    assert_eq!(totals, half);
}
