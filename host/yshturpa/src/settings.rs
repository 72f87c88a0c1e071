//! What a run is made with, and the words that it is to the engine.

use crate::layout::{setting, GIVEN, SETTING_WORDS};

/// How large an entry is.
#[derive(Clone, Copy, Debug, PartialEq)]
pub enum Sizing {
    FixedFraction(f64),
    FixedQty(f64),
    FixedCash(f64),
    VolTarget { target: f64, lookback: u64 },
    RiskPerTrade(f64),
}

impl Sizing {
    /// The kind and its value.
    fn parts(self) -> (u64, f64) {
        match self {
            Sizing::FixedFraction(x) => (0, x),
            Sizing::FixedQty(x) => (1, x),
            Sizing::FixedCash(x) => (2, x),
            Sizing::VolTarget { target, .. } => (3, target),
            Sizing::RiskPerTrade(x) => (4, x),
        }
    }
}

/// How far a fill is from the price it is made at.
#[derive(Clone, Copy, Debug, PartialEq)]
pub enum Slippage {
    FixedBps(f64),
    VolumeImpact(f64),
}

impl Slippage {
    /// The kind and its value.
    fn parts(self) -> (u64, f64) {
        match self {
            Slippage::FixedBps(x) => (0, x),
            Slippage::VolumeImpact(x) => (1, x),
        }
    }
}

/// When an entry fills. Levels are percent over the deciding bar's close, under it where they are negative, for both sides.
#[derive(Clone, Copy, Debug, PartialEq)]
pub enum EntryOrder {
    Market,
    Limit { level_pct: f64 },
    Stop { level_pct: f64 },
    StopLimit { stop_pct: f64, limit_pct: f64 },
}

impl EntryOrder {
    /// The order kind, its level and its limit; 0 where it has none.
    fn parts(self) -> (u64, f64, f64) {
        match self {
            EntryOrder::Market => (0, 0.0, 0.0),
            EntryOrder::Limit { level_pct } => (1, level_pct, 0.0),
            EntryOrder::Stop { level_pct } => (2, level_pct, 0.0),
            EntryOrder::StopLimit { stop_pct, limit_pct } => (3, stop_pct, limit_pct),
        }
    }
}

/// What a run is made with. `Settings::new` has no costs, no levels and no delay, market entries, and any quantity.
#[derive(Clone, Debug, PartialEq)]
pub struct Settings {
    pub slots: usize,
    pub depth: usize,
    pub capital: f64,
    pub warmup: u64,
    pub delay: u64,
    pub sizing: Sizing,
    pub taker_bps: f64,
    pub slippage: Slippage,
    pub funding: bool,
    pub stop_loss_pct: Option<f64>,
    pub trailing_stop_pct: Option<f64>,
    pub take_profit_pct: Option<f64>,
    pub max_leverage: Option<f64>,
    pub max_position_pct: Option<f64>,
    pub liquidation: bool,
    pub partial_fills: bool,
    pub max_participation: f64,
    pub entry_order: EntryOrder,
    /// The fee of a limit's entry; every other fill pays `taker_bps`.
    pub maker_bps: f64,
    /// A quantity is a whole number of lots; 0: any quantity.
    pub lot: f64,
}

impl Settings {
    pub fn new(slots: usize, depth: usize, capital: f64, sizing: Sizing) -> Settings {
        Settings {
            slots,
            depth,
            capital,
            sizing,
            warmup: 0,
            delay: 0,
            taker_bps: 0.0,
            slippage: Slippage::FixedBps(0.0),
            funding: false,
            stop_loss_pct: None,
            trailing_stop_pct: None,
            take_profit_pct: None,
            max_leverage: None,
            max_position_pct: None,
            liquidation: false,
            partial_fills: false,
            max_participation: 0.0,
            entry_order: EntryOrder::Market,
            maker_bps: 0.0,
            lot: 0.0,
        }
    }

    /// The lookback of a volatility target, 0 where sizing is another: what [`crate::depth`] takes.
    pub fn lookback(&self) -> u64 {
        match self.sizing {
            Sizing::VolTarget { lookback, .. } => lookback,
            _ => 0,
        }
    }

    /// The settings as their words: what a box hands to the library.
    pub fn words(&self) -> [u64; SETTING_WORDS] {
        let (sizing, size) = self.sizing.parts();
        let (slippage, slip) = self.slippage.parts();
        let (order, level, limit) = self.entry_order.parts();
        let mut words = [0; SETTING_WORDS];
        words[setting::SLOTS] = self.slots as u64;
        words[setting::DEPTH] = self.depth as u64;
        words[setting::CAPITAL] = self.capital.to_bits();
        words[setting::WARMUP] = self.warmup;
        words[setting::DELAY] = self.delay;
        words[setting::SIZING_KIND] = sizing;
        words[setting::SIZING_VALUE] = size.to_bits();
        words[setting::LOOKBACK] = self.lookback();
        words[setting::TAKER_BPS] = self.taker_bps.to_bits();
        words[setting::SLIPPAGE_KIND] = slippage;
        words[setting::SLIPPAGE_VALUE] = slip.to_bits();
        words[setting::FUNDING] = self.funding as u64;
        for (number, level) in self.levels() {
            if let Some(x) = level {
                words[number] = x.to_bits();
                words[GIVEN] |= 1 << number;
            }
        }
        words[setting::LIQUIDATION] = self.liquidation as u64;
        words[setting::PARTIAL_FILLS] = self.partial_fills as u64;
        words[setting::PARTICIPATION] = self.max_participation.to_bits();
        words[setting::ENTRY_KIND] = order;
        words[setting::LEVEL_PCT] = level.to_bits();
        words[setting::LIMIT_PCT] = limit.to_bits();
        words[setting::MAKER_BPS] = self.maker_bps.to_bits();
        words[setting::LOT] = self.lot.to_bits();
        words
    }

    /// The settings that may be left out, by number.
    fn levels(&self) -> [(usize, Option<f64>); 5] {
        [
            (setting::STOP_LOSS, self.stop_loss_pct),
            (setting::TRAILING_STOP, self.trailing_stop_pct),
            (setting::TAKE_PROFIT, self.take_profit_pct),
            (setting::MAX_LEVERAGE, self.max_leverage),
            (setting::MAX_POSITION, self.max_position_pct),
        ]
    }
}
