//! The rows that fit for each number of slots: a table to hand to clients.

use yshturpa::layout::MOST_SLOTS;

use super::given::Given;

/// K from 0 on, and the rows that fit, a client being alone in its box or one of as many like it as `--dumps` says.
pub fn limits(given: &Given) -> Option<Vec<(u64, u64)>> {
    let have = given.have.filter(|_| given.limits)?;
    Some((0..=MOST_SLOTS as u64).map(|slots| (slots, given.rows_within(have, slots))).collect())
}
