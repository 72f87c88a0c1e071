//! The tests of a table that fall silent over so few rows: each comparison, cross, Between, Rising and Falling that reaches back as many bars as
//! there are rows, or more, by its node's number, in table order.

use super::table::{Fields, Node};

/// A subtree: how far back it reaches, and the number just past its last node.
struct Below {
    reach: u64,
    past: usize,
}

fn is_test(node: &Node) -> bool {
    (16..=26).contains(&node.kind)
}

/// The subtree of node `at`; its tests, with what each reaches back, are added to `tests` in table order.
fn subtree(table: &Fields, at: usize, tests: &mut Vec<(u64, u64)>) -> Below {
    let node = table.node(at);
    let own = tests.len();
    if is_test(&node) {
        tests.push((at as u64, 0));
    }
    let (mut most, mut past) = (0, at + 1);
    for _ in 0..node.below().0 {
        let child = subtree(table, past, tests);
        (most, past) = (most.max(child.reach), child.past);
    }
    let reach = most + node.back();
    if is_test(&node) {
        tests[own].1 = reach;
    }
    Below { reach, past }
}

/// Those of an accepted table over `rows` rows.
pub fn silent(bytes: &[u8], rows: u64) -> Vec<u64> {
    let table = Fields(bytes);
    let mut tests = Vec::new();
    let mut at = 0;
    while at < table.total() {
        at = subtree(&table, at, &mut tests).past;
    }
    tests.retain(|&(_, reach)| reach >= rows);
    tests.into_iter().map(|(number, _)| number).collect()
}

#[cfg(test)]
mod tests {
    use super::silent;
    use oracle::lists::trees::{close, compare, negated, prev, slot};
    use oracle::spec::Condition;
    use oracle::table::Table;

    /// CrossAbove(slot 0, slot 1) reaches back 1, Lt(close, Prev(close, 2)) reaches back 2.
    #[test]
    fn the_example() {
        let (entry, exit) = (compare(22, slot(0), slot(1)), compare(17, close(), prev(close(), 2)));
        let table = Table {
            slots: 2,
            trees: [Some(entry), Some(exit), None, None],
        }
        .bytes();
        assert_eq!(silent(&table, 3), []);
        assert_eq!(silent(&table, 2), [3]);
        assert_eq!(silent(&table, 1), [0, 3]);
        assert_eq!(silent(&table, 0), [0, 3]);
    }

    /// What joins tests falls never silent itself.
    #[test]
    fn joined() {
        let far = |n: u32| compare(16, prev(close(), n), close());
        let entry = Condition::All(vec![far(5), negated(far(7)), far(6)]);
        let table = Table {
            slots: 0,
            trees: [Some(entry), Some(far(9)), None, None],
        }
        .bytes();
        // All is node 0; its tests are 1, 6 (under the Not, 5) and 10; the exit is 14.
        assert_eq!(silent(&table, 7), [6, 14]);
        assert_eq!(silent(&table, 6), [6, 10, 14]);
    }
}
