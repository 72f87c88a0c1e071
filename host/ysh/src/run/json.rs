//! A run for programs: everything, in exact numbers.

use std::collections::BTreeMap;
use std::io::{self, Write};

use serde::{Deserialize, Deserializer, Serialize, Serializer};
use yshturpa::{Point, Trade};

use super::outcome::{reason_name, Outcome};
use crate::lists::List;
use crate::problem::Problem;
use crate::table::number;

/// A float as it is; one that is not finite, which JSON has no number for, as a text: `inf`, `-inf` or `NaN`.
#[derive(Clone, Copy, Debug, PartialEq)]
pub struct Exact(pub f64);

impl Serialize for Exact {
    fn serialize<S: Serializer>(&self, serializer: S) -> Result<S::Ok, S::Error> {
        match self.0.is_finite() {
            true => serializer.serialize_f64(self.0),
            false => serializer.serialize_str(&number(self.0)),
        }
    }
}

impl<'de> Deserialize<'de> for Exact {
    fn deserialize<D: Deserializer<'de>>(deserializer: D) -> Result<Exact, D::Error> {
        #[derive(Deserialize)]
        #[serde(untagged)]
        enum Written {
            Number(f64),
            Text(String),
        }
        match Written::deserialize(deserializer)? {
            Written::Number(x) => Ok(Exact(x)),
            Written::Text(text) => match text.as_str() {
                "inf" => Ok(Exact(f64::INFINITY)),
                "-inf" => Ok(Exact(f64::NEG_INFINITY)),
                "NaN" => Ok(Exact(f64::NAN)),
                _ => Err(serde::de::Error::custom("a number, or \"inf\", \"-inf\" or \"NaN\", was expected")),
            },
        }
    }
}

/// A run, to be written one record after another.
#[derive(Serialize)]
pub struct Document<'a> {
    file: &'a str,
    bars_file: &'a str,
    capital: Exact,
    bars: usize,
    metrics: MetricsJson,
    last_equity: Exact,
    fees_paid: Exact,
    #[serde(serialize_with = "trades")]
    trades: &'a List<Trade>,
    #[serde(serialize_with = "points")]
    equity: &'a List<Point>,
    refused_bars: u64,
    /// The first of them.
    refused: Vec<RefusedJson>,
    columns_not_read: &'a [String],
    doubts: &'a [String],
    bars_doubts: &'a [String],
    notes: &'a [String],
}

#[derive(Serialize)]
struct MetricsJson {
    #[serde(flatten)]
    floats: BTreeMap<&'static str, Exact>,
    num_trades: u64,
}

#[derive(Serialize)]
struct TradeJson {
    entry_time: i64,
    exit_time: i64,
    entry_price: Exact,
    exit_price: Exact,
    qty: Exact,
    pnl: Exact,
    return_pct: Exact,
    reason: &'static str,
    funding: Exact,
    worst: Exact,
}

#[derive(Serialize)]
struct RefusedJson {
    place: String,
    text: String,
    refused: Option<[u32; 2]>,
}

pub fn json(outcome: &Outcome, out: &mut dyn Write) -> io::Result<()> {
    serde_json::to_writer(&mut *out, &document(outcome))?;
    out.write_all(b"\n")
}

pub fn document(outcome: &Outcome) -> Document<'_> {
    let floats = outcome.nine().into_iter().filter(|(name, ..)| *name != "num_trades");
    Document {
        file: &outcome.file,
        bars_file: &outcome.bars_file,
        capital: Exact(outcome.capital),
        bars: outcome.equity.len(),
        metrics: MetricsJson {
            floats: floats.map(|(name, _, _, x)| (name, Exact(x))).collect(),
            num_trades: outcome.metrics.num_trades,
        },
        last_equity: Exact(outcome.last_equity()),
        fees_paid: Exact(outcome.fees),
        trades: &outcome.trades,
        equity: &outcome.equity,
        refused_bars: outcome.refusals.count,
        refused: outcome.refusals.told.iter().map(refused).collect(),
        columns_not_read: &outcome.unread,
        doubts: &outcome.doubts,
        bars_doubts: &outcome.odd,
        notes: &outcome.notes,
    }
}

fn trades<S: Serializer>(trades: &List<Trade>, serializer: S) -> Result<S::Ok, S::Error> {
    serializer.collect_seq(trades.iter().map(trade))
}

fn points<S: Serializer>(points: &List<Point>, serializer: S) -> Result<S::Ok, S::Error> {
    serializer.collect_seq(points.iter().map(|point| (point.time, Exact(point.equity))))
}

fn trade(trade: Trade) -> TradeJson {
    TradeJson {
        entry_time: trade.entry_time,
        exit_time: trade.exit_time,
        entry_price: Exact(trade.entry_price),
        exit_price: Exact(trade.exit_price),
        qty: Exact(trade.qty),
        pnl: Exact(trade.pnl),
        return_pct: Exact(trade.return_pct),
        reason: reason_name(trade.reason),
        funding: Exact(trade.funding),
        worst: Exact(trade.worst),
    }
}

fn refused(problem: &Problem) -> RefusedJson {
    RefusedJson {
        place: problem.place.clone(),
        text: problem.text.clone(),
        refused: problem.refusal.map(|refusal| [refusal.number, refusal.place]),
    }
}

#[cfg(test)]
mod tests {
    use super::*;

    #[test]
    fn numbers_read_as_they_were_written() {
        for x in [0.0, -0.0, 0.1, 5e-324, f64::MAX, 1e300, 12345.678, f64::INFINITY, f64::NEG_INFINITY, f64::NAN] {
            let text = serde_json::to_string(&Exact(x)).unwrap();
            let Exact(read) = serde_json::from_str(&text).unwrap();
            assert!(read.to_bits() == x.to_bits() || (read.is_nan() && x.is_nan()), "{text}");
        }
        assert!(serde_json::from_str::<Exact>("\"infinite\"").is_err());
    }
}
