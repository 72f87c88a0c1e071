//! A child of the text's `portfolio`: the one field that is private there.

use super::Portfolio;

/// A portfolio as it stands in the middle of a run.
pub fn held(cash: f64, qty: f64, entry_price: f64, entry_time: i64, entry_fee: f64, fees_paid: f64) -> Portfolio {
    Portfolio {
        cash,
        qty,
        entry_price,
        entry_time,
        entry_fee,
        trades: Vec::new(),
        fees_paid,
    }
}

pub fn entry_fee(portfolio: &Portfolio) -> f64 {
    portfolio.entry_fee
}
