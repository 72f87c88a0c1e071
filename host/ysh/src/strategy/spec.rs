//! The types of a strategy document: the same fields, in the same order and with the same defaults as the original's, so that both
//! read the same documents and refuse the same ones. `compare/strategies` holds the two against each other.

use std::collections::BTreeMap;

use serde::{Deserialize, Serialize};

pub use super::operand::{Expr, Operand};

/// The newest version of the format that is read.
pub const NEWEST: u32 = 1;

fn newest() -> u32 {
    NEWEST
}

#[derive(Clone, Debug, PartialEq, Serialize, Deserialize)]
pub struct Strategy {
    #[serde(default = "newest")]
    pub spec_version: u32,
    pub symbol: String,
    #[serde(default)]
    pub ref_symbol: Option<String>,
    pub timeframe: String,
    pub indicators: BTreeMap<String, Indicator>,
    pub entry: Condition,
    pub exit: Condition,
    #[serde(default)]
    pub short_entry: Option<Condition>,
    #[serde(default)]
    pub short_exit: Option<Condition>,
    pub sizing: Sizing,
    #[serde(default)]
    pub costs: Costs,
    #[serde(default)]
    pub risk: Risk,
    #[serde(default)]
    pub execution: Execution,
    /// Left out, it is the longest of the indicators' own.
    #[serde(default)]
    pub warmup: Option<u32>,
}

impl Strategy {
    /// The lookback of a volatility target, 0 where sizing is another.
    pub fn lookback(&self) -> u64 {
        match self.sizing {
            Sizing::VolTarget { lookback, .. } => lookback.into(),
            _ => 0,
        }
    }
}

#[derive(Clone, Debug, PartialEq, Serialize, Deserialize)]
pub struct Indicator {
    #[serde(rename = "type")]
    pub kind: String,
    #[serde(default)]
    pub params: Vec<f64>,
    #[serde(default, skip_serializing_if = "Option::is_none")]
    pub feed: Option<Feed>,
}

#[derive(Clone, Copy, Debug, PartialEq, Eq, Serialize, Deserialize)]
#[serde(rename_all = "snake_case")]
pub enum Feed {
    Kline,
    Trade,
    Orderbook,
    TradeQuote,
    Derivatives,
    CrossSection,
}

/// The prices of a bar, in the order of a table's selectors.
#[derive(Clone, Copy, Debug, PartialEq, Eq, Serialize, Deserialize)]
#[serde(rename_all = "snake_case")]
pub enum PriceField {
    Open,
    High,
    Low,
    Close,
    Volume,
    Hlc3,
    Ohlc4,
}

impl PriceField {
    pub const ALL: [PriceField; 7] = [
        PriceField::Open,
        PriceField::High,
        PriceField::Low,
        PriceField::Close,
        PriceField::Volume,
        PriceField::Hlc3,
        PriceField::Ohlc4,
    ];
}

#[derive(Clone, Debug, PartialEq, Serialize, Deserialize)]
#[serde(rename_all = "snake_case")]
pub enum Condition {
    Gt((Operand, Operand)),
    Lt((Operand, Operand)),
    Ge((Operand, Operand)),
    Le((Operand, Operand)),
    Eq((Operand, Operand)),
    Ne((Operand, Operand)),
    CrossAbove((Operand, Operand)),
    CrossBelow((Operand, Operand)),
    /// Value, low, high.
    Between((Operand, Operand, Operand)),
    Rising((Operand, u32)),
    Falling((Operand, u32)),
    All(Vec<Condition>),
    Any(Vec<Condition>),
    Not(Box<Condition>),
    InPosition(bool),
    BarsSinceEntry(Bars),
}

/// What the bars since the entry are compared with, in the order of a table's selectors.
#[derive(Clone, Copy, Debug, PartialEq, Eq, Serialize, Deserialize)]
#[serde(rename_all = "snake_case")]
pub enum Bars {
    Gt(u32),
    Lt(u32),
    Ge(u32),
    Le(u32),
    Eq(u32),
}

#[derive(Clone, Copy, Debug, PartialEq, Serialize, Deserialize)]
#[serde(tag = "type", rename_all = "snake_case")]
pub enum Sizing {
    FixedFraction { fraction: f64 },
    FixedQty { qty: f64 },
    FixedCash { cash: f64 },
    VolTarget { target_vol: f64, lookback: u32 },
    RiskPerTrade { risk_pct: f64 },
}

#[derive(Clone, Copy, Debug, PartialEq, Default, Serialize, Deserialize)]
pub struct Costs {
    #[serde(default)]
    pub maker_bps: f64,
    #[serde(default)]
    pub taker_bps: f64,
    #[serde(default)]
    pub slippage: Slippage,
    #[serde(default)]
    pub funding: bool,
}

#[derive(Clone, Copy, Debug, PartialEq, Serialize, Deserialize)]
#[serde(tag = "type", rename_all = "snake_case")]
pub enum Slippage {
    FixedBps { bps: f64 },
    Spread,
    VolumeImpact { coef: f64 },
}

impl Default for Slippage {
    fn default() -> Self {
        Slippage::FixedBps { bps: 0.0 }
    }
}

#[derive(Clone, Copy, Debug, PartialEq, Default, Serialize, Deserialize)]
pub struct Risk {
    #[serde(default)]
    pub stop_loss_pct: Option<f64>,
    #[serde(default)]
    pub take_profit_pct: Option<f64>,
    #[serde(default)]
    pub trailing_stop_pct: Option<f64>,
    #[serde(default)]
    pub max_leverage: Option<f64>,
    #[serde(default)]
    pub max_position_pct: Option<f64>,
    #[serde(default)]
    pub liquidation: bool,
}

#[derive(Clone, Copy, Debug, PartialEq, Default, Serialize, Deserialize)]
pub struct Execution {
    #[serde(default)]
    pub order_type: OrderType,
    #[serde(default)]
    pub fill_timing: FillTiming,
    #[serde(default)]
    pub limit_offset_pct: Option<f64>,
    #[serde(default)]
    pub stop_offset_pct: Option<f64>,
    #[serde(default)]
    pub latency_bars: u32,
    #[serde(default)]
    pub partial_fills: bool,
    #[serde(default)]
    pub max_participation: Option<f64>,
}

#[derive(Clone, Copy, Debug, PartialEq, Eq, Default, Serialize, Deserialize)]
#[serde(rename_all = "snake_case")]
pub enum OrderType {
    #[default]
    Market,
    Limit,
    Stop,
    StopLimit,
}

#[derive(Clone, Copy, Debug, PartialEq, Eq, Default, Serialize, Deserialize)]
#[serde(rename_all = "snake_case")]
pub enum FillTiming {
    #[default]
    NextOpen,
    Close,
}
