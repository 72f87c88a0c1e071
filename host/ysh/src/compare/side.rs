//! One of two runs: its points and its trades, from a file that `ysh run --json` wrote or from a run.

use std::fmt;
use std::fs::File;
use std::io::{self, BufReader};
use std::marker::PhantomData;
use std::path::Path;

use serde::de::{Error, SeqAccess, Visitor};
use serde::{Deserialize, Deserializer};
use yshturpa::{Point, Trade};

use crate::columns::counted;
use crate::files::name_of;
use crate::lists::List;
use crate::problem::Problem;
use crate::run::json::Exact;
use crate::run::outcome::{reason_name, REASONS};
use crate::show::shown;

pub struct Side {
    /// What it is called: its file, or its library.
    pub name: String,
    /// Rules and bars.
    pub of: String,
    pub equity: List<Point>,
    pub trades: List<Trade>,
}

/// Of what `ysh run --json` writes, that which is compared.
#[derive(Deserialize)]
struct Written {
    file: String,
    bars_file: String,
    trades: WrittenTrades,
    #[serde(deserialize_with = "points")]
    equity: List<Point>,
}

/// The trades up to the first with a reason that there is not, and that one's number and reason.
#[derive(Default)]
struct WrittenTrades {
    trades: List<Trade>,
    wrong: Option<(usize, String)>,
}

#[derive(Deserialize)]
struct WrittenTrade {
    entry_time: i64,
    exit_time: i64,
    entry_price: Exact,
    exit_price: Exact,
    qty: Exact,
    pnl: Exact,
    return_pct: Exact,
    reason: String,
    funding: Exact,
    worst: Exact,
}

/// Reads a list one after another, and hands each over.
struct Each<T, F>(F, PhantomData<T>);

impl<'de, T: Deserialize<'de>, F: FnMut(T) -> Result<(), Problem>> Visitor<'de> for Each<T, F> {
    type Value = ();

    fn expecting(&self, f: &mut fmt::Formatter) -> fmt::Result {
        f.write_str("a sequence")
    }

    fn visit_seq<A: SeqAccess<'de>>(mut self, mut list: A) -> Result<(), A::Error> {
        while let Some(one) = list.next_element()? {
            (self.0)(one).map_err(Error::custom)?;
        }
        Ok(())
    }
}

fn points<'de, D: Deserializer<'de>>(deserializer: D) -> Result<List<Point>, D::Error> {
    let mut points = List::default();
    let add = |(time, Exact(equity)): (i64, Exact)| points.add(&Point { time, equity }.words());
    deserializer.deserialize_seq(Each(add, PhantomData))?;
    Ok(points)
}

impl<'de> Deserialize<'de> for WrittenTrades {
    fn deserialize<D: Deserializer<'de>>(deserializer: D) -> Result<WrittenTrades, D::Error> {
        let WrittenTrades { mut trades, mut wrong } = WrittenTrades::default();
        let add = |read: WrittenTrade| match (&wrong, read.trade()) {
            (None, Some(trade)) => trades.add(&trade.words()),
            (None, None) => {
                wrong = Some((trades.len(), read.reason));
                Ok(())
            }
            (Some(_), _) => Ok(()),
        };
        deserializer.deserialize_seq(Each(add, PhantomData))?;
        Ok(WrittenTrades { trades, wrong })
    }
}

impl WrittenTrade {
    /// None where there is no such reason.
    fn trade(&self) -> Option<Trade> {
        Some(Trade {
            entry_time: self.entry_time,
            exit_time: self.exit_time,
            entry_price: self.entry_price.0,
            exit_price: self.exit_price.0,
            qty: self.qty.0,
            pnl: self.pnl.0,
            return_pct: self.return_pct.0,
            reason: REASONS.into_iter().find(|reason| reason_name(*reason) == self.reason)?,
            funding: self.funding.0,
            worst: self.worst.0,
        })
    }
}

impl Side {
    /// Reads what `ysh run --json` wrote.
    pub fn read(path: &Path) -> Result<Side, Problem> {
        const EXPECTED: &str = "a run that `ysh run --json` wrote was expected";
        let name = name_of(path);
        let unread = |error: &io::Error| {
            let problem = Problem::io(&name, "read", error);
            Problem { text: format!("{}; {EXPECTED}", problem.text), ..problem }
        };
        let file = File::open(path).map_err(|error| unread(&error))?;
        let read: Written =
            serde_json::from_reader(BufReader::with_capacity(1 << 16, file)).map_err(|error| match error.is_io() {
                true => unread(&error.into()),
                false => Problem::input(&name, "", format!("{EXPECTED}: {error}")),
            })?;
        if let Some((at, reason)) = read.trades.wrong {
            let text = format!("{reason:?} is no reason; one that `ysh run --json` writes was expected");
            return Err(Problem::input(&name, format!("trades[{at}].reason"), shown(&text)));
        }
        Ok(Side {
            trades: read.trades.trades,
            equity: read.equity,
            of: shown(&format!("{} over {}", read.file, read.bars_file)),
            name,
        })
    }

    pub fn told(&self) -> String {
        let (points, trades) = (self.equity.len() as u64, self.trades.len() as u64);
        format!(
            "{}: {}, {}, {}",
            self.name,
            self.of,
            counted(points, "bar", "bars"),
            counted(trades, "trade", "trades")
        )
    }
}
