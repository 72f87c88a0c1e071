//! An image in words.

use yshturpa::layout::DUMP_HEADER;
use yshturpa::{parts_written, Image, State};

use crate::columns::{columns, counted, grouped, Side};
use crate::show::{rounded, Clock};
use crate::why::moment::{is_flat, order_words};

/// As many rows as are shown.
const ROWS: usize = 5;

pub fn image(image: &Image, bytes: usize) -> Vec<String> {
    let state = image.state();
    let slots = image.rows().slots();
    let clock = Clock::of(state.last_time(), state.last_time());
    let mut lines = vec![
        format!(
            "image    {} bytes, whole: D {}, {}",
            grouped(bytes as u64),
            grouped(image.depth() as u64),
            counted(slots as u64, "slot", "slots")
        ),
        format!("bars     {} seen{}", grouped(state.bars_seen()), last(state, clock)),
        format!("position {}", position(state, clock)),
        format!("order    {}", order_words(state).unwrap_or_else(|| "none".to_owned())),
        format!("cash     {}; fees paid {}", rounded(state.cash()), rounded(state.fees_paid())),
        format!(
            "rows     {} of {}{}",
            grouped(image.rows().len() as u64),
            grouped(image.depth() as u64),
            if image.rows().len() > ROWS { ", the last of them" } else { "" }
        ),
    ];
    lines.extend(rows(image, clock));
    lines
}

fn last(state: &State, clock: Clock) -> String {
    match state.bars_seen() {
        0 => String::new(),
        _ => format!(", the last at {} with the close {}", clock.text(state.last_time()), rounded(state.last_close())),
    }
}

fn position(state: &State, clock: Clock) -> String {
    let position = state.position();
    if is_flat(&position) {
        return "none".to_owned();
    }
    let side = if position.qty > 0.0 { "long" } else { "short" };
    let since = position.entry_bar.map_or(String::new(), |bar| format!(" at bar {bar}"));
    format!(
        "{side} {} entered at {}, {}{since}; worst price so far {}, best {}; fee {}, funding {}",
        rounded(position.qty.abs()),
        rounded(state.entry_price()),
        clock.text(state.entry_time()),
        rounded(state.open_worst()),
        rounded(state.extreme()),
        rounded(state.entry_fee()),
        rounded(state.open_funding())
    )
}

/// The last rows, a slot that is absent as a dash.
fn rows(image: &Image, clock: Clock) -> Vec<String> {
    let count = image.rows().len();
    if count == 0 {
        return Vec::new();
    }
    let slots = image.rows().slots();
    let names: Vec<String> = (0..slots).map(|k| format!("slot {k}")).collect();
    let heads = ["open", "high", "low", "close", "volume"].into_iter().chain(names.iter().map(String::as_str));
    let heads: Vec<(&str, Side)> =
        [("time", Side::Left)].into_iter().chain(heads.map(|name| (name, Side::Right))).collect();
    let row = |place: usize| {
        let bar = image.rows().bar(place);
        let mut cells = vec![clock.text(bar.time)];
        cells.extend([bar.open, bar.high, bar.low, bar.close, bar.volume].map(rounded));
        cells.extend(bar.slots.iter().map(|slot| slot.map_or("-".to_owned(), rounded)));
        cells
    };
    let rows: Vec<Vec<String>> = (count.saturating_sub(ROWS)..count).map(row).collect();
    columns(&heads, &rows).into_iter().map(|line| format!("  {line}")).collect()
}

/// Why an image is refused (19), as far as its first bytes tell.
pub fn fault(image: &[u8]) -> String {
    let word = |at: usize| usize::from(image[at]) + 256 * usize::from(image[at + 1]);
    if image.len() < DUMP_HEADER {
        return format!("it has {} bytes, and its header alone is {DUMP_HEADER}", image.len());
    }
    if image[..3] != *b"WDP" {
        return match image[..3] == [0, 0, 0] {
            true => "its mark is not written: the supply was lost before the last byte, or nothing was ever written"
                .to_owned(),
            false => "its first three bytes are not WDP".to_owned(),
        };
    }
    let (slots, depth) = (usize::from(image[3]), word(6));
    if word(4) != 1 {
        return format!("its version is {}, and 1 was expected", word(4));
    }
    let size = DUMP_HEADER + depth * 8 * (7 + slots);
    match image.len() == size {
        false => format!("it has {} bytes; with its D of {depth} and K of {slots} {size} were expected", image.len()),
        true => "something in it no box writes: a count, a kind, a row that is not finite, or a byte that has to be 0"
            .to_owned(),
    }
}

/// What was written of an image that was cut.
pub fn cut(image: usize, bytes: u64, row: usize) -> Vec<String> {
    let [(rows, all), (header, of_header), (mark, of_mark)] = parts_written(image, bytes as usize);
    let whole = counted((rows / row) as u64, "whole row", "whole rows");
    let part = if rows % row == 0 { "" } else { " and a part of the next" };
    vec![
        format!("rows     {} of {} bytes: {whole}{part}", grouped(rows as u64), grouped(all as u64)),
        format!("header   {header} of {of_header} bytes"),
        format!("mark     {mark} of {of_mark} bytes, written last"),
    ]
}
