//! The numbers that the lists are made of, by the dice of the host's own tests.

use std::ops::{Deref, DerefMut};

use crate::data::Candle;
use crate::spec::{Risk, Sizing, Slippage};

/// A seed gives the same list everywhere.
pub struct Dice(dice::Dice);

impl Deref for Dice {
    type Target = dice::Dice;

    fn deref(&self) -> &Self::Target {
        &self.0
    }
}

impl DerefMut for Dice {
    fn deref_mut(&mut self) -> &mut Self::Target {
        &mut self.0
    }
}

/// Numbers at the edges of what a float can be, and of what the rules ask. No −0.0: the sign of a zero min or max is open.
pub const ODD: [f64; 20] = [
    0.0,
    1.0,
    -1.0,
    -50.5,
    100.0,
    f64::EPSILON,
    f64::EPSILON.next_up(),
    f64::EPSILON.next_down(),
    -f64::EPSILON,
    5e-324,
    f64::MIN_POSITIVE,
    1e-300,
    1e300,
    f64::MAX,
    -f64::MAX,
    f64::INFINITY,
    f64::NEG_INFINITY,
    f64::NAN,
    9_007_199_254_740_992.0,
    0.1,
];

impl Dice {
    pub fn new(seed: u64) -> Self {
        Self(dice::Dice(seed))
    }

    pub fn between(&mut self, low: u64, high: u64) -> u64 {
        low + self.below(high - low + 1)
    }

    /// 0 up to 1.
    pub fn unit(&mut self) -> f64 {
        (self.bits() >> 11) as f64 / (1u64 << 53) as f64
    }

    pub fn span(&mut self, low: f64, high: f64) -> f64 {
        low + (high - low) * self.unit()
    }

    /// Any bits, a NaN as the one pattern.
    pub fn any(&mut self) -> f64 {
        let x = f64::from_bits(self.bits());
        if x.is_nan() {
            f64::NAN
        } else {
            x
        }
    }

    pub fn odd(&mut self) -> f64 {
        if self.percent(85) {
            self.pick(&ODD)
        } else {
            self.any()
        }
    }

    /// A price: mostly quarters, so that prices meet.
    pub fn price(&mut self) -> f64 {
        if self.percent(70) {
            self.between(80, 880) as f64 / 4.0
        } else {
            self.span(0.01, 300.0)
        }
    }

    /// A price, at times an odd number.
    pub fn rough_price(&mut self) -> f64 {
        if self.percent(90) {
            self.price()
        } else {
            self.odd()
        }
    }

    pub fn time(&mut self) -> i64 {
        if self.percent(90) {
            self.between(0, 2_000_000_000) as i64
        } else {
            self.bits() as i64
        }
    }

    pub fn volume(&mut self) -> f64 {
        match self.below(10) {
            0 => 0.0,
            1 => self.odd(),
            _ => self.between(1, 5_000) as f64,
        }
    }

    pub fn candle(&mut self) -> Candle {
        Candle {
            time: self.time(),
            open: self.rough_price(),
            high: self.rough_price(),
            low: self.rough_price(),
            close: self.rough_price(),
            volume: self.volume(),
        }
    }

    /// A bar whose high and low bracket its open and close.
    pub fn bar(&mut self, time: i64, open: f64, close: f64) -> Candle {
        let spread = (open.abs() + close.abs()) * 0.02;
        let quarter = |x: f64| (x * 4.0).round() / 4.0;
        Candle {
            time,
            open,
            high: open.max(close) + quarter(spread * self.unit()),
            low: open.min(close) - quarter(spread * self.unit()),
            close,
            volume: self.between(0, 3_000) as f64,
        }
    }

    pub fn maybe(&mut self, chance: u64, x: f64) -> Option<f64> {
        self.percent(chance).then_some(x)
    }

    fn level(&mut self) -> Option<f64> {
        let round = self.between(0, 40) as f64 / 2.0;
        let odd = self.pick(&[100.0, 150.0, -5.0, 0.0, 1e300, f64::NAN, f64::INFINITY]);
        match self.below(10) {
            0..=3 => None,
            4..=8 => Some(round),
            _ => Some(odd),
        }
    }

    fn limit(&mut self, usual: &[f64]) -> Option<f64> {
        match self.below(10) {
            0..=4 => None,
            5..=8 => Some(self.pick(usual)),
            _ => Some(self.odd()),
        }
    }

    pub fn risk(&mut self) -> Risk {
        Risk {
            stop_loss_pct: self.level(),
            trailing_stop_pct: self.level(),
            take_profit_pct: self.level(),
            max_leverage: self.limit(&[0.5, 1.0, 2.0, 5.0, 20.0]),
            max_position_pct: self.limit(&[0.0, 10.0, 50.0, 100.0, 250.0]),
            liquidation: self.percent(50),
        }
    }

    /// A sizing of kind 0 to 4. Kind 4 needs a stop loss beside it.
    pub fn sizing(&mut self, kind: u64, odd: bool) -> Sizing {
        let usual = match kind {
            0 => self.pick(&[0.1, 0.25, 0.5, 1.0, 2.0]),
            1 => self.pick(&[0.5, 1.0, 3.0, 10.0, 1000.0]),
            2 => self.pick(&[50.0, 500.0, 5_000.0, 100_000.0]),
            3 => self.pick(&[0.005, 0.01, 0.02, 0.1]),
            _ => self.pick(&[0.5, 1.0, 2.0, 10.0]),
        };
        let value = if odd { self.odd() } else { usual };
        let lookback = self.between(0, 12) as u32;
        sizing_of(kind, value, lookback)
    }

    pub fn slippage(&mut self, odd: bool) -> Slippage {
        if self.percent(50) {
            let bps = if odd {
                self.odd()
            } else {
                self.pick(&[0.0, 1.0, 5.0, 25.0, 10_000.0])
            };
            Slippage::FixedBps { bps }
        } else {
            let coef = if odd {
                self.odd()
            } else {
                self.pick(&[0.0, 0.01, 0.1, 1.0, 3.0])
            };
            Slippage::VolumeImpact { coef }
        }
    }

    pub fn taker_bps(&mut self) -> f64 {
        if self.percent(90) {
            self.pick(&[0.0, 1.0, 4.5, 10.0, 100.0, -2.0])
        } else {
            self.odd()
        }
    }

    /// Words of a portfolio: in a position three times in four.
    pub fn quantity(&mut self) -> f64 {
        match self.below(12) {
            0 | 1 => 0.0,
            2 => self.odd(),
            3..=7 => self.pick(&[0.5, 1.0, 2.5, 10.0, 120.0]),
            _ => -self.pick(&[0.5, 1.0, 2.5, 10.0, 120.0]),
        }
    }
}

pub fn sizing_of(kind: u64, value: f64, lookback: u32) -> Sizing {
    match kind {
        0 => Sizing::FixedFraction { fraction: value },
        1 => Sizing::FixedQty { qty: value },
        2 => Sizing::FixedCash { cash: value },
        3 => Sizing::VolTarget {
            target_vol: value,
            lookback,
        },
        _ => Sizing::RiskPerTrade { risk_pct: value },
    }
}
