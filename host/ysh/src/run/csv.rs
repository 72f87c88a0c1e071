//! Trades and equity as CSV: every number as the shortest decimal that reads as it again.

use std::io::{self, Write};

use csv::Writer;
use yshturpa::{Point, Trade};

use super::outcome::reason_name;
use crate::lists::List;
use crate::table::number;

pub fn trades(trades: &List<Trade>, out: &mut dyn Write) -> io::Result<()> {
    let heads = ["entry_time", "exit_time", "entry_price", "exit_price", "qty", "pnl", "return_pct", "reason"];
    written(heads.iter().chain(&["funding", "worst"]), trades.iter().map(trade), out)
}

fn trade(trade: Trade) -> Vec<String> {
    let mut cells = vec![trade.entry_time.to_string(), trade.exit_time.to_string()];
    cells.extend([trade.entry_price, trade.exit_price, trade.qty, trade.pnl, trade.return_pct].map(number));
    cells.push(reason_name(trade.reason).to_owned());
    cells.extend([trade.funding, trade.worst].map(number));
    cells
}

pub fn equity(points: &List<Point>, out: &mut dyn Write) -> io::Result<()> {
    let line = |point: Point| vec![point.time.to_string(), number(point.equity)];
    written(["time", "equity"].iter(), points.iter().map(line), out)
}

fn written<'a>(
    heads: impl Iterator<Item = &'a &'a str>,
    lines: impl Iterator<Item = Vec<String>>,
    out: &mut dyn Write,
) -> io::Result<()> {
    let mut writer = Writer::from_writer(out);
    writer.write_record(heads)?;
    for line in lines {
        writer.write_record(&line)?;
    }
    writer.flush()
}
