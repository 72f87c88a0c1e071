//! The same run by the Rust original, and where the two differ.

use oracle::answers::tick_of;
use oracle::engine::reach::During;
use oracle::metrics::Metrics;
use oracle::portfolio::Trade;
use oracle::{by_reading, run_of, Reading};

use crate::case::Case;
use crate::ours::Told;

pub struct Run {
    pub metrics: Metrics,
    pub trades: Vec<(Trade, During)>,
    pub equity: Vec<(i64, f64)>,
    pub refused: u64,
    /// The order that works after each bar: 1 enter long, 2 enter short, 3 exit.
    pub orders: Vec<Option<u64>>,
}

impl Run {
    /// Bar by bar; one whose entry is of too many lots is left out.
    pub fn of(case: &Case) -> Result<Run, String> {
        let said = |error| format!("the original: {error:?}");
        let mut run = run_of(&case.settings, &case.table, Reading::Paper).map_err(said)?;
        let (mut refused, mut orders) = (0, Vec::new());
        for bar in &case.bars {
            if case.settings.lot != 0.0 && run.is_turned_away(&bar.candle).map_err(said)? {
                refused += 1;
                continue;
            }
            let tick = bar.funding.map(|(mark, rate)| tick_of(mark, rate));
            run.step(&bar.candle, &bar.slots, tick.as_ref()).map_err(said)?;
            orders.push(run.held().order.map(|(order, ..)| order));
        }
        let mut noted = run.noted().1.to_vec();
        let (report, during) = run.finish();
        noted.resize(report.trades.len(), during);
        Ok(Run {
            metrics: by_reading(report.metrics, Reading::Paper),
            trades: report.trades.into_iter().zip(noted).collect(),
            equity: report.equity.iter().map(|point| (point.time, point.equity)).collect(),
            refused,
            orders,
        })
    }

    /// How many zeros are of the other sign; an error where anything else differs.
    pub fn differs(&self, told: &Told) -> Result<u64, String> {
        let mut zeros = 0;
        let mut same = |what: String, ours: f64, theirs: f64| {
            let alike = ours.to_bits() == theirs.to_bits() || ours.is_nan() && theirs.is_nan();
            // The sign of a zero min or max is open in the original (docs/DIFFERENCES.md, 6).
            let sign = !alike && ours == 0.0 && theirs == 0.0;
            zeros += u64::from(sign);
            match alike || sign {
                true => Ok(()),
                false => Err(format!("{what} is {ours:?}, and {theirs:?} was expected")),
            }
        };
        let m = &self.metrics;
        let nine = [
            m.pnl,
            m.return_pct,
            m.sharpe,
            m.sortino,
            m.calmar,
            m.max_drawdown,
            m.win_rate,
            m.profit_factor,
        ];
        for (k, theirs) in nine.into_iter().enumerate() {
            same(format!("metric {k}"), told.metrics[k], theirs)?;
        }
        let counts = [
            (told.num_trades, m.num_trades as u64),
            (told.trades.len() as u64, self.trades.len() as u64),
        ];
        let points = (told.equity.len() as u64, self.equity.len() as u64);
        if let Some((ours, theirs)) = counts.into_iter().chain([points]).find(|(ours, theirs)| ours != theirs) {
            return Err(format!("{ours} trades or points, and {theirs} were expected"));
        }
        for (k, (ours, theirs)) in told.equity.iter().zip(&self.equity).enumerate() {
            if ours.0 != theirs.0 {
                return Err(format!(
                    "the time of point {k} is {}, and {} was expected",
                    ours.0, theirs.0
                ));
            }
            same(format!("the equity of point {k}"), ours.1, theirs.1)?;
        }
        for (k, (ours, (trade, during))) in told.trades.iter().zip(&self.trades).enumerate() {
            let floats = [
                trade.entry_price,
                trade.exit_price,
                trade.qty,
                trade.pnl,
                trade.return_pct,
            ];
            for (at, (ours, theirs)) in ours.floats.into_iter().zip(floats).enumerate() {
                same(format!("trade {k}, float {at}"), ours, theirs)?;
            }
            same(format!("trade {k}, funding"), ours.during[0], during.funding)?;
            same(format!("trade {k}, worst"), ours.during[1], during.worst)?;
            if ours.times != [trade.entry_time, trade.exit_time] || ours.reason != trade.reason[..] {
                return Err(format!("trade {k}: its times or its reason differ: {trade:?}"));
            }
        }
        Ok(zeros)
    }
}
