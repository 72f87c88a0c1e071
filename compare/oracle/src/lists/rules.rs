//! The list of rules over rows.

use super::dice::Dice;
use super::trees::{
    always, arith, bars_since, close, compare, negated, never, number, prev, price, slot, Wood, FIELDS,
};
use crate::data::Candle;
use crate::spec::Condition;
use crate::table::Table;
use crate::words::{hex_of_bytes, Line};

/// A row: its candle, and what stands in its slots.
struct Row {
    candle: Candle,
    slots: Vec<Option<f64>>,
}

/// What a rule reads of the position.
#[derive(Clone, Copy)]
struct State {
    qty: f64,
    entry_bar: Option<usize>,
    bars_seen: u64,
}

const FLAT: State = State {
    qty: 0.0,
    entry_bar: None,
    bars_seen: 9,
};

/// The mask and the words of slots.
pub fn slot_words(line: Line, slots: &[Option<f64>]) -> Line {
    let bit = |(k, slot): (usize, &Option<f64>)| u64::from(slot.is_some()) << k;
    let mask = slots.iter().enumerate().map(bit).sum();
    slots
        .iter()
        .fold(line.word(mask), |line, slot| line.float(slot.unwrap_or(0.0)))
}

fn case(table: &Table, rows: &[Row], state: State) -> String {
    let line = Line::new().word(rows.len() as u64);
    let line = rows
        .iter()
        .fold(line, |line, row| slot_words(line.candle(&row.candle), &row.slots));
    let line = line.float(state.qty).entry_bar(state.entry_bar).word(state.bars_seen);
    format!("{} {}", hex_of_bytes(&table.bytes()), line.text())
}

fn table(slots: usize, entry: Condition, exit: Condition) -> Table {
    Table {
        slots,
        trees: [Some(entry), Some(exit), None, None],
    }
}

/// Rows with these closes, every other price the same.
fn closes(list: &[f64]) -> Vec<Row> {
    let row = |(i, &close): (usize, &f64)| Row {
        candle: Candle {
            time: i as i64,
            open: close,
            high: close,
            low: close,
            close,
            volume: 1.0,
        },
        slots: Vec::new(),
    };
    list.iter().enumerate().map(row).collect()
}

/// The edges that document 01 stars, both sides of each, and its example table.
fn starred() -> Vec<String> {
    let nothing = |entry: Condition| table(0, entry, never());
    let above_ten = nothing(compare(22, close(), number(10.0)));
    let absent = || compare(16, slot(0), number(0.0));
    let nan = || arith(8, number(1.0), number(0.0));
    let back = nothing(compare(16, prev(number(5.0), 3), number(1.0)));
    let far = nothing(compare(22, prev(prev(close(), 2), 3), number(1.0)));
    let one_slot = |value: Option<f64>| {
        let mut rows = closes(&[11.0]);
        rows[0].slots = vec![value];
        rows
    };
    let example = Table {
        slots: 2,
        trees: [
            Some(compare(22, slot(0), slot(1))),
            Some(compare(17, close(), prev(close(), 2))),
            None,
            None,
        ],
    };
    let mut crossing = closes(&[12.0, 11.0, 10.0]);
    for (row, fast) in crossing.iter_mut().zip([4.0, 5.0, 6.0]) {
        row.slots = vec![Some(fast), Some(5.0)];
    }
    vec![
        case(&above_ten, &closes(&[11.0]), FLAT),
        case(&above_ten, &closes(&[10.0, 11.0]), FLAT),
        case(&table(1, absent(), negated(absent())), &one_slot(None), FLAT),
        case(&table(1, absent(), negated(absent())), &one_slot(Some(1.0)), FLAT),
        case(
            &table(0, compare(20, nan(), nan()), compare(21, nan(), nan())),
            &closes(&[1.0]),
            FLAT,
        ),
        case(&table(0, always(), never()), &closes(&[1.0]), FLAT),
        case(&table(0, always(), never()), &[], FLAT),
        case(&back, &closes(&[1.0, 1.0, 1.0]), FLAT),
        case(&back, &closes(&[1.0, 1.0, 1.0, 1.0]), FLAT),
        case(&far, &closes(&[0.0, 2.0, 2.0, 2.0, 2.0, 2.0]), FLAT),
        case(&far, &closes(&[0.0, 2.0, 2.0, 2.0, 2.0, 2.0, 2.0]), FLAT),
        case(&example, &crossing, FLAT),
    ]
}

/// The largest tables: 256 nodes, nesting 32, 64 slots, a reach of 4,095.
fn largest() -> Vec<String> {
    let steps: Vec<Condition> = (0..63).map(|i| compare(16, close(), number(f64::from(i)))).collect();
    let every = Table {
        slots: 0,
        trees: [
            Some(Condition::All(steps.clone())),
            Some(Condition::Any(steps[..21].to_vec())),
            Some(negated(Condition::InPosition(true))),
            None,
        ],
    };
    let nest = |depth: usize, from: Condition| (0..depth).fold(from, |inner, _| negated(inner));
    let deep = table(
        0,
        nest(31, Condition::InPosition(true)),
        nest(30, Condition::InPosition(false)),
    );
    let deep_operand = (0..30).fold(close(), |inner, _| arith(5, inner, number(1.0)));
    let deepest = table(0, compare(16, deep_operand, number(39.5)), never());
    let far = table(
        0,
        Condition::Rising((close(), 4_095)),
        compare(16, prev(close(), 4_095), number(0.0)),
    );
    let last_slot = table(64, compare(16, slot(63), slot(0)), compare(22, slot(63), slot(62)));
    let mut wide = closes(&[1.0, 2.0]);
    for (i, row) in wide.iter_mut().enumerate() {
        row.slots = (0..64).map(|k| Some((k + i * (63 - k)) as f64)).collect();
    }
    wide[1].slots[63] = Some(100.0);
    vec![
        case(&every, &closes(&[62.5]), FLAT),
        case(&every, &closes(&[61.5]), FLAT),
        case(&every, &closes(&[-1.0]), FLAT),
        case(&deep, &closes(&[1.0]), FLAT),
        case(&deepest, &closes(&[9.0]), FLAT),
        case(&deepest, &closes(&[10.0]), FLAT),
        case(&far, &closes(&[1.0, 2.0, 3.0]), FLAT),
        case(&last_slot, &wide, FLAT),
    ]
}

/// BarsSinceEntry and InPosition by every state; quantities around EPS; the greatest count of bars.
fn states() -> Vec<String> {
    let eps = f64::EPSILON;
    let states = [
        0.0,
        1.0,
        -1.0,
        eps,
        -eps,
        eps.next_up(),
        -eps.next_up(),
        f64::NAN,
        f64::INFINITY,
    ]
    .map(|qty| State {
        qty,
        entry_bar: Some(5),
        ..FLAT
    });
    let other = [
        State { qty: 1.0, ..FLAT },
        State {
            qty: 1.0,
            entry_bar: Some(8),
            ..FLAT
        },
        State {
            qty: -1.0,
            entry_bar: Some(0),
            ..FLAT
        },
        State {
            qty: 1.0,
            entry_bar: Some(0),
            bars_seen: u64::from(u32::MAX),
        },
        State { bars_seen: 0, ..FLAT },
    ];
    let tables: Vec<Table> = (0..5)
        .map(|selector| Table {
            slots: 0,
            trees: [
                Some(bars_since(selector, 3)),
                Some(negated(bars_since(selector, 0))),
                Some(Condition::InPosition(true)),
                Some(bars_since(selector, u32::MAX - 1)),
            ],
        })
        .collect();
    let over = |table: &Table| -> Vec<String> {
        states
            .iter()
            .chain(&other)
            .map(|&state| case(table, &closes(&[1.0]), state))
            .collect()
    };
    tables.iter().flat_map(over).collect()
}

/// Every field of a candle, and the two averages.
fn fields() -> Vec<String> {
    let candle = Candle {
        time: -1,
        open: 10.0,
        high: 13.0,
        low: 8.0,
        close: 11.0,
        volume: 7.0,
    };
    let row = || {
        [Row {
            candle,
            slots: Vec::new(),
        }]
    };
    let values = [10.0, 13.0, 8.0, 11.0, 7.0, 32.0 / 3.0, 10.5];
    let field = |(&field, value)| {
        let equal = |x: f64| compare(20, price(field), number(x));
        case(&table(0, equal(value), equal(value + 2.0 * f64::EPSILON)), &row(), FLAT)
    };
    FIELDS.iter().zip(values).map(field).collect()
}

fn some_row(dice: &mut Dice, wood: &Wood, time: i64) -> Row {
    let mut near = || dice.between(16, 22) as f64 / 2.0;
    let candle = Candle {
        time,
        open: near(),
        high: near(),
        low: near(),
        close: near(),
        volume: near() - 8.0,
    };
    let slots = (0..wood.slots)
        .map(|_| dice.percent(85).then(|| dice.between(16, 22) as f64 / 2.0))
        .collect();
    Row { candle, slots }
}

fn some_state(dice: &mut Dice) -> State {
    let bars_seen = dice.between(1, 12);
    State {
        qty: dice.pick(&[0.0, 0.0, 1.0, 2.5, -1.0, -40.0, f64::EPSILON]),
        entry_bar: dice.percent(70).then(|| dice.below(bars_seen) as usize),
        bars_seen,
    }
}

pub fn rule(seed: u64) -> Vec<String> {
    let dice = &mut Dice::new(seed);
    let mut list = [starred(), largest(), states(), fields()].concat();
    while list.len() < 260 {
        let wood = Wood {
            slots: dice.below(4),
            constants: vec![
                8.0,
                8.5,
                9.0,
                9.5,
                10.0,
                11.0,
                0.0,
                1.0,
                -1.0,
                0.5,
                1e300,
                1e-300,
                f64::EPSILON,
            ],
            fields: 7,
            back: 4,
            nodes: 40,
        };
        let nesting = dice.between(0, 3);
        let table = wood.table(dice, nesting);
        let rows = dice.below(6) as i64;
        let rows: Vec<Row> = (0..rows).map(|time| some_row(dice, &wood, time)).collect();
        list.push(case(&table, &rows, some_state(dice)));
    }
    list
}
