//! Many questions in one call: each has the chain that it has by itself.

use yshturpa::layout::kind::{ALL, ANY, BARS_SINCE_ENTRY, CROSS_ABOVE, IN_POSITION, LT, NOT, PREV, PRICE, REF};
use yshturpa::{why, why_over, Bar, Error, Position, Refusal, Rows, Tree, WhyLine};

/// More rows than go into one call of the library.
const ROWS: usize = 600;

fn node(kind: u8, selector: u8, children: u8, n: u8) -> [u8; 16] {
    let mut bytes = [0; 16];
    (bytes[0], bytes[1], bytes[2], bytes[4]) = (kind, selector, children, n);
    bytes
}

/// Entry: All(CrossAbove(slot 0, slot 1), Not(InPosition)). Exit: Any(Lt(close, Prev(close, 2)), bars since entry above 5).
fn table() -> Vec<u8> {
    let header = [b'R', b'T', b'B', 2, 1, 0, 12, 0, 6, 0, 6, 0, 0, 0, 0, 0];
    let cross = [node(ALL, 0, 2, 0), node(CROSS_ABOVE, 0, 0, 0), node(REF, 0, 0, 0), node(REF, 0, 0, 1)];
    let entry = [&cross[..], &[node(NOT, 0, 0, 0), node(IN_POSITION, 1, 0, 0)]].concat();
    let falls =
        [node(ANY, 0, 2, 0), node(LT, 0, 0, 0), node(PRICE, 3, 0, 0), node(PREV, 0, 0, 2), node(PRICE, 3, 0, 0)];
    let exit = [&falls[..], &[node(BARS_SINCE_ENTRY, 0, 0, 5)]].concat();
    [&header[..], &entry.concat(), &exit.concat()].concat()
}

fn bar(i: usize) -> Bar {
    let wave = |step: usize| ((i * step) % 23) as f64;
    Bar {
        time: i as i64,
        close: 100.0 + wave(7),
        slots: vec![(i % 11 != 3).then(|| wave(5)), (i % 13 != 4).then(|| wave(9))],
        ..Bar::default()
    }
}

fn rows(count: usize) -> Rows {
    let mut rows = Rows::new(2);
    (0..count).for_each(|i| rows.push(&bar(i)));
    rows
}

/// Flat, long with an entry bar, and long without one, by turns.
fn position(i: usize) -> Position {
    let entry_bar = (i % 3 == 1).then_some(i as u64 / 2);
    Position { qty: (i % 3).min(1) as f64, entry_bar, bars_seen: i as u64 + 1 }
}

#[test]
fn each_row_has_the_chain_that_it_has_alone() {
    let (table, all) = (table(), rows(ROWS));
    for tree in [Tree::Entry, Tree::Exit, Tree::ShortEntry] {
        let first = 3;
        let positions: Vec<Position> = (first..ROWS).map(position).collect();
        let chains = why_over(&table, tree, &all, first, &positions).unwrap();
        assert_eq!(chains.len(), positions.len());
        for (i, chain) in chains.iter().enumerate() {
            let alone: Vec<WhyLine> = why(&table, tree, &rows(first + i + 1), &positions[i]).unwrap();
            assert_eq!(chain, &alone, "row {}", first + i);
        }
        assert_eq!(tree == Tree::ShortEntry, chains.iter().all(Vec::is_empty));
    }
}

#[test]
fn what_a_single_question_refuses_is_refused_and_rows_that_are_not_there() {
    let (table, all) = (table(), rows(10));
    let refused = |number| Err(Error::Refused(Refusal { number, place: 0 }));
    let positions: Vec<Position> = (8..11).map(position).collect();
    assert_eq!(why_over(&table, Tree::Entry, &all, 8, &positions), refused(13));
    let late = Position { entry_bar: Some(9), ..position(8) };
    assert_eq!(why_over(&table, Tree::Entry, &all, 8, &[late, position(9)]), refused(13));
    assert_eq!(
        why_over(&table[..20], Tree::Entry, &all, 8, &positions).map(|_| ()),
        why(&table[..20], Tree::Entry, &all, &late).map(|_| ())
    );
    assert_eq!(why_over(&table, Tree::Entry, &all, 8, &[]), Ok(vec![]));
}
