//! Refusals 10 to 16, in the paper's order: 10, 12, 13, 14, 11, 15, then 16; under one number the lowest place.

use oracle::data::Candle;
use oracle::engine::reach::{raw_price, realized_vol, Lots, Order, Waits};
use oracle::lists::dice::sizing_of;
use oracle::spec::{Risk, Sizing, Slippage};
use yshturpa::layout::{
    state, GIVEN, METRIC_WORDS, POSITION_WORDS, SETTING_WORDS, STATE_WORDS, STEP_ROOM, TRADE_WORDS,
};

use super::{finite, refusal, silent, steps, table};
use crate::records::{bar_words, Position};

const MOST: u64 = 4_294_967_295;
const MOST_SLOTS: u64 = 64;
const MOST_DEPTH: u64 = 4_096;
const MOST_LOOKBACK: u64 = 4_095;
const LOOKBACK: u64 = 7;
/// The rooms of the silent tests, of the lines that say why, and of their counts.
const SILENT_ROOM: u64 = 18;
const LINES_ROOM: u64 = 10;
const COUNTS_ROOM: u64 = 19;
/// Words of the lines of one row.
const PLACE: usize = 256;

pub type Checked = Result<(), u64>;

/// Nothing where `right`, else the refusal.
pub fn need(right: bool, number: u64, place: u64) -> Checked {
    if right {
        Ok(())
    } else {
        Err(refusal(number, place))
    }
}

pub fn word(words: &[u64], i: usize) -> u64 {
    words.get(i).copied().unwrap_or(0)
}

/// 10 of the rooms that every call with a state has; a setting past the end is 0.
pub fn rooms(settings: &[u64], state: &[u64], rows: &[u64]) -> Checked {
    let width = 7 + u128::from(word(settings, 0));
    let needed = u128::from(word(settings, 1)).saturating_mul(width);
    need(needed <= rows.len() as u128, 10, 0)?;
    words(settings, state)
}

fn words(settings: &[u64], state: &[u64]) -> Checked {
    need(settings.len() >= SETTING_WORDS, 10, 7)?;
    need(state.len() >= STATE_WORDS, 10, 8)
}

/// 12, setting by setting.
pub fn settings(s: &[u64]) -> Checked {
    let lookback = if s[5] == 3 { s[7] } else { 0 };
    let given = |i: usize| s[GIVEN] >> i & 1 == 1;
    need(s[0] <= MOST_SLOTS, 12, 0)?;
    need((1..=MOST_DEPTH).contains(&s[1]) && lookback < s[1], 12, 1)?;
    need(finite(s[2]), 12, 2)?;
    need(s[5] <= 4, 12, 5)?;
    need(finite(s[6]), 12, 6)?;
    need(lookback <= MOST_LOOKBACK, 12, LOOKBACK)?;
    need(finite(s[8]), 12, 8)?;
    need(s[9] <= 1, 12, 9)?;
    need(finite(s[10]), 12, 10)?;
    need(s[5] != 4 || given(12), 12, 12)?;
    for (i, &level) in s.iter().enumerate().take(17).skip(12) {
        need(!given(i) || finite(level), 12, i as u64)?;
    }
    need(finite(s[19]), 12, 19)?;
    need(s[20] <= 3, 12, 20)?;
    (21..24).try_for_each(|i| need(finite(s[i]), 12, i as u64))?;
    need(finite(s[24]) && f64::from_bits(s[24]) >= 0.0, 12, 24)
}

/// The places that a room has for records of `width` words.
fn places(room: &[u64], width: u64) -> u64 {
    room.len() as u64 / width
}

/// 13 of a state.
fn counts(s: &[u64], slots: u64, rows: &[u64], equity: &[u64], trades: &[u64]) -> Checked {
    let counts = [
        (state::BARS_SEEN, MOST),
        (state::ROWS_HELD, places(rows, 7 + slots)),
        (state::EQUITY_POINTS, places(equity, 2)),
        (state::TRADES, places(trades, TRADE_WORDS as u64)),
    ];
    for (count, most) in counts {
        need(s[count] <= most.min(MOST), 13, 0)?;
    }
    entry_bar(s[state::ENTERED], s[state::ENTRY_BAR], s[state::BARS_SEEN])
}

/// The same where of the rooms only that of the rows is lent.
pub fn counts_held(s: &[u64], slots: u64, rows: &[u64]) -> Checked {
    need(s[state::EQUITY_POINTS] <= MOST && s[state::TRADES] <= MOST, 13, 0)?;
    let mut s = s.to_vec();
    (s[state::EQUITY_POINTS], s[state::TRADES]) = (0, 0);
    counts(&s, slots, rows, &[], &[])
}

fn entry_bar(entered: u64, bar: u64, bars_seen: u64) -> Checked {
    need(entered == 0 || bar < bars_seen, 13, 0)
}

/// 11 of a bar.
pub fn bar(bar: &[u64], slots: usize, bars_seen: u64) -> Checked {
    let present = |k: usize| bar[6] >> k & 1 == 1;
    let prices = bar[1..6].iter().all(|&price| finite(price));
    let no_more = (slots..64).all(|k| !present(k));
    let values = (0..slots).all(|k| !present(k) || finite(bar[7 + k]));
    let funding = bar[7 + slots] == 0 || finite(bar[8 + slots]) && finite(bar[9 + slots]);
    need(prices && no_more && values && funding, 11, bars_seen)
}

fn lists(lists: [&[u8]; 4], slots: u64, depth: u64) -> Checked {
    for (number, list) in lists.into_iter().enumerate() {
        if let Some(place) = steps::ill_formed(list, slots, depth) {
            return Err(refusal(15, 1_024 * number as u64 + place));
        }
    }
    Ok(())
}

/// What an entry is sized by, of settings that 12 has passed.
fn order(s: &[u64]) -> Order {
    let float = |i: usize| f64::from_bits(s[i]);
    let level = |i: usize| (s[GIVEN] >> i & 1 == 1).then(|| float(i));
    Order {
        sizing: sizing_of(s[5], float(6), s[7] as u32),
        risk: Risk {
            stop_loss_pct: level(12),
            trailing_stop_pct: level(13),
            take_profit_pct: level(14),
            max_leverage: level(15),
            max_position_pct: level(16),
            liquidation: s[17] != 0,
        },
        slippage: match s[9] {
            0 => Slippage::FixedBps { bps: float(10) },
            _ => Slippage::VolumeImpact { coef: float(10) },
        },
        participation: (s[18] != 0).then(|| float(19)),
        lot: float(24),
    }
}

/// What the working entry of a state waits for; a kind that names nothing is a market order.
fn waits(s: &[u64]) -> Waits {
    Waits {
        kind: s[state::ORDER_KIND],
        level: f64::from_bits(s[state::ORDER_LEVEL]),
        limit: f64::from_bits(s[state::ORDER_LIMIT]),
    }
}

fn candle(new: &[u64]) -> Candle {
    let price = |i: usize| f64::from_bits(new[i]);
    Candle {
        time: new[0] as i64,
        open: price(1),
        high: price(2),
        low: price(3),
        close: price(4),
        volume: price(5),
    }
}

/// 16: an entry that is due and reached would be of 2^53 lots or more.
fn lots(with: &Lent, new: &[u64]) -> Checked {
    let (s, order, candle) = (with.state, order(with.settings), candle(new));
    let (side, dir) = match (s[state::ORDER], s[state::ORDER_DELAY]) {
        (1, 0) => (0, 1.0),
        (2, 0) => (1, -1.0),
        _ => return Ok(()),
    };
    let Some(price) = raw_price(side, waits(s), &candle) else {
        return Ok(());
    };
    let width = 7 + with.settings[0] as usize;
    let held = &with.rows[..width * s[state::ROWS_HELD] as usize];
    let closes: Vec<f64> = held.chunks(width).map(|row| f64::from_bits(row[4])).collect();
    let rv = match order.sizing {
        Sizing::VolTarget { lookback, .. } => realized_vol(&closes, lookback as usize),
        _ => None,
    };
    let filled = order.fill(dir, price, candle.volume, f64::from_bits(s[state::CASH]), rv);
    let quantity = filled.expect("12 has seen to the stop loss").1;
    need(quantity != Lots::TooLarge, 16, s[state::BARS_SEEN])
}

pub fn fresh(settings: &[u64], state: &[u64]) -> Checked {
    words(settings, state)
}

/// The rooms and data of a step or a finish.
pub struct Lent<'a> {
    pub settings: &'a [u64],
    pub state: &'a [u64],
    pub rows: &'a [u64],
    pub equity: &'a [u64],
    pub trades: &'a [u64],
}

pub fn step(with: &Lent, new: &[u64], four: [&[u8]; 4]) -> Checked {
    rooms(with.settings, with.state, with.rows)?;
    settings(with.settings)?;
    let (slots, depth, s) = (with.settings[0], with.settings[1], with.state);
    counts(s, slots, with.rows, with.equity, with.trades)?;
    need(new.len() == bar_words(slots as usize), 13, 0)?;
    let free =
        s[state::EQUITY_POINTS] < places(with.equity, 2) && s[state::TRADES] < places(with.trades, TRADE_WORDS as u64);
    need(free && s[state::BARS_SEEN] < MOST, 14, 0)?;
    bar(new, slots as usize, s[state::BARS_SEEN])?;
    lists(four, slots, depth)?;
    lots(with, new)
}

pub fn finish(with: &Lent, metrics: &[u64]) -> Checked {
    rooms(with.settings, with.state, with.rows)?;
    need(metrics.len() >= METRIC_WORDS, 10, 9)?;
    settings(with.settings)?;
    let s = with.state;
    counts(s, with.settings[0], with.rows, with.equity, with.trades)?;
    let closes = f64::from_bits(s[state::QTY]).abs() > f64::EPSILON && s[state::BARS_SEEN] > 0;
    need(
        !closes || s[state::TRADES] < places(with.trades, TRADE_WORDS as u64),
        14,
        0,
    )
}

fn position(rows: &[u64], slots: u64, at: Position) -> Checked {
    need((rows.len() as u64).is_multiple_of(7 + slots), 13, 0)?;
    need(at.bars_seen <= MOST, 13, 0)?;
    entry_bar(at.entered, at.entry_bar, at.bars_seen)
}

pub fn depth(bytes: &[u8], lookback: u64) -> Checked {
    table::checked(bytes)?;
    need(lookback <= MOST_LOOKBACK, 12, LOOKBACK)
}

pub fn silent(bytes: &[u8], rows: u64, places: usize) -> Checked {
    table::checked(bytes)?;
    need(silent::silent(bytes, rows).len() <= places, 10, SILENT_ROOM)
}

pub fn translate(bytes: &[u8], tree: u64, room: usize) -> Checked {
    table::checked(bytes)?;
    let needed = STEP_ROOM as u64 * table::nodes_of_tree(bytes, tree);
    need(needed <= room as u64, 10, 3 + tree)
}

pub fn rule(bytes: &[u8], rows: &[u64], at: Position) -> Checked {
    table::checked(bytes)?;
    position(rows, table::slots(bytes), at)
}

/// As a call for each of the newest rows, with as many positions; all of these are judged before any line is written.
pub fn why_over(bytes: &[u8], rows: &[u64], positions: &[u64], lines: usize, counts: usize) -> Checked {
    table::checked(bytes)?;
    let (asked, width) = (positions.len() / POSITION_WORDS, 7 + table::slots(bytes) as usize);
    need(asked <= lines / PLACE, 10, LINES_ROOM)?;
    need(asked <= counts, 10, COUNTS_ROOM)?;
    let whole = rows.len().is_multiple_of(width) && positions.len().is_multiple_of(POSITION_WORDS);
    need(whole && asked <= rows.len() / width, 13, 0)?;
    let mut each = positions.chunks_exact(POSITION_WORDS);
    each.try_for_each(|at| position(rows, table::slots(bytes), Position::of(at)))
}

pub fn run(list: &[u8], rows: &[u64], (slots, depth): (u64, u64), at: Position) -> Checked {
    need(slots <= MOST_SLOTS, 12, 0)?;
    need((1..=MOST_DEPTH).contains(&depth), 12, 1)?;
    position(rows, slots, at)?;
    lists([list, &[], &[], &[]], slots, depth)
}

pub fn metrics(equity: &[u64], trades: &[u64], room: usize) -> Checked {
    need(room >= METRIC_WORDS, 10, 9)?;
    need(
        equity.len().is_multiple_of(2) && trades.len().is_multiple_of(TRADE_WORDS),
        13,
        0,
    )
}
