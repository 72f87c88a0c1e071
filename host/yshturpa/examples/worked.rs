//! The papers' worked rule, run from Rust: enter long where the fast average crosses above the slow one, leave where the
//! close is below the close two bars before.

use yshturpa::{check, depth, silent, Bar, Engine, Error, Settings, Sizing, Slippage};

const FAST: usize = 3;
const SLOW: usize = 8;
const BARS: usize = 60;

/// A node's 16 bytes, of a kind with no children of its own to count and no constant.
fn node(kind: u8, selector: u8, n: u8) -> [u8; 16] {
    let mut bytes = [0; 16];
    (bytes[0], bytes[1], bytes[4]) = (kind, selector, n);
    bytes
}

/// Entry: CrossAbove(slot 0, slot 1). Exit: Lt(close, Prev(close, 2)).
fn table() -> Vec<u8> {
    let header = [b'R', b'T', b'B', 2, 1, 0, 7, 0, 3, 0, 4, 0, 0, 0, 0, 0];
    let nodes =
        [node(22, 0, 0), node(2, 0, 0), node(2, 0, 1), node(17, 0, 0), node(3, 3, 0), node(4, 0, 2), node(3, 3, 0)];
    [&header[..], &nodes.concat()].concat()
}

/// A wave of sixteen bars that climbs a little with each turn.
fn close_of(bar: usize) -> f64 {
    let phase = bar % 16;
    let height = if phase < 8 { phase } else { 16 - phase };
    100.0 + 1.5 * height as f64 + 0.25 * bar as f64
}

/// The mean of the last closes, where there are so many.
fn average(bar: usize, length: usize) -> Option<f64> {
    let first = (bar + 1).checked_sub(length)?;
    Some((first..=bar).rev().map(close_of).sum::<f64>() / length as f64)
}

fn bar(i: usize) -> Bar {
    let close = close_of(i);
    let open = if i > 0 { close_of(i - 1) } else { close };
    Bar {
        time: i as i64 * 60_000,
        open,
        high: close.max(open) + 0.5,
        low: close.min(open) - 0.5,
        close,
        volume: 1000.0,
        slots: vec![average(i, FAST), average(i, SLOW)],
        funding: None,
    }
}

fn main() -> Result<(), Error> {
    let table = table();
    let accepted = check(&table)?;
    println!("accepted nodes {} rows {}", accepted.nodes, accepted.rows);
    let window = depth(&table, 0)?;
    println!("window {} rows, {} bytes", window.rows, window.bytes);
    println!("silent over a row less: nodes {:?}", silent(&table, window.rows - 1)?);
    let mut settings = Settings::new(2, window.rows as usize, 10_000.0, Sizing::FixedFraction(0.5));
    settings.taker_bps = 5.0;
    settings.slippage = Slippage::FixedBps(2.0);
    settings.stop_loss_pct = Some(10.0);
    let mut engine = Engine::new(&table, &settings, BARS, 32)?;
    let day: Vec<Bar> = (0..BARS).map(bar).collect();
    let (done, answer) = engine.steps(&day);
    answer?;
    println!("the day: {done} bars in one call");
    let metrics = engine.finish()?;
    for (i, trade) in engine.trades().enumerate() {
        println!("trade {i}: {trade:?}");
    }
    println!("equity points {}", engine.equity().count());
    println!("{metrics:#?}");
    Ok(())
}
