//! What a run leaves behind: points, trades and closes, and what is counted of the trades.

use std::ops::Range;

use spill::swept;
use yshturpa::{metrics_of_words, Bars, Engine, Metrics, Point, Reason, Refusal, Trade};

use super::outcome::REASONS;
use crate::bars::Keep;
use crate::lists::List;
use crate::problem::Problem;

#[derive(Default)]
pub struct Results {
    pub points: List<Point>,
    pub trades: List<Trade>,
    /// Where they are wanted.
    pub closes: Option<List<f64>>,
    /// Room for the closes of a part.
    words: Vec<u64>,
}

impl Keep for Results {
    fn bars(&mut self, list: &Bars, places: Range<usize>) -> Result<(), Problem> {
        let Some(closes) = &mut self.closes else { return Ok(()) };
        self.words.clear();
        self.words.extend(places.map(|place| list.close(place).to_bits()));
        closes.add(&self.words)
    }

    fn results(&mut self, points: &[u64], trades: &[u64]) -> Result<(), Problem> {
        self.points.add(points)?;
        self.trades.add(trades)
    }
}

impl Results {
    pub fn new(closes: bool) -> Results {
        Results { closes: closes.then(List::default), ..Results::default() }
    }

    /// The end of a run whose settled results are here already: the open position is closed, the rest handed over, and all of it measured.
    pub fn finished(
        &mut self,
        engine: &mut Engine,
        capital: f64,
        refused: impl Fn(Refusal) -> Problem,
    ) -> Result<Metrics, Problem> {
        // These metrics are of what the engine still has.
        engine.finish().map_err(&refused)?;
        let (points, trades) = engine.results();
        self.results(points, trades)?;
        engine.forget_results();
        let (points, trades) = (&self.points.words, &self.trades.words);
        swept(&[points, trades], || metrics_of_words(capital, points.words(), trades.words())).map_err(refused)
    }
}

/// How many trades were left for each reason, were won and were lost, and what they paid in funding.
#[derive(Clone, Copy, Debug, Default)]
pub struct Tally {
    left: [usize; REASONS.len()],
    pub won: usize,
    pub lost: usize,
    pub funding: f64,
}

impl Tally {
    pub fn of(trades: &List<Trade>) -> Tally {
        let mut tally = Tally::default();
        for trade in trades.iter() {
            tally.left[trade.reason as usize - 1] += 1;
            tally.won += usize::from(trade.pnl > 0.0);
            tally.lost += usize::from(trade.pnl < 0.0);
            tally.funding += trade.funding;
        }
        tally
    }

    /// How many trades were left for a reason.
    pub fn left_for(&self, reason: Reason) -> usize {
        self.left[reason as usize - 1]
    }
}
