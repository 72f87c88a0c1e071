//! Stand-in: the types that the text names, with nothing of their behaviour. Indicators and order books are outside the
//! port; a derivatives tick only carries the mark and the rate. (What the real crate's own checks refuse is not known here.)

pub type Error = &'static str;

#[derive(Debug, Clone, Copy)]
pub struct Candle;

impl Candle {
    pub fn new(_o: f64, _h: f64, _l: f64, _c: f64, _v: f64, _time: i64) -> Result<Self, Error> {
        Ok(Self)
    }
}

#[derive(Debug, Clone, Copy)]
pub enum Side {
    Buy,
    Sell,
}

#[derive(Debug, Clone, Copy)]
pub struct Trade;

impl Trade {
    pub fn new(_price: f64, _size: f64, _side: Side, _time: i64) -> Result<Self, Error> {
        Ok(Self)
    }
}

#[derive(Debug, Clone, Copy)]
pub struct Level {
    pub price: f64,
}

impl Level {
    pub fn new(price: f64, _size: f64) -> Result<Self, Error> {
        Ok(Self { price })
    }
}

#[derive(Debug, Clone)]
pub struct OrderBook;

impl OrderBook {
    pub fn new(_bids: Vec<Level>, _asks: Vec<Level>) -> Result<Self, Error> {
        Ok(Self)
    }

    pub fn best_bid(&self) -> Option<Level> {
        None
    }

    pub fn best_ask(&self) -> Option<Level> {
        None
    }
}

#[derive(Debug, Clone, Copy)]
pub struct DerivativesTick {
    pub funding_rate: f64,
    pub mark_price: f64,
}

impl DerivativesTick {
    #[allow(clippy::too_many_arguments)]
    pub fn new(
        funding_rate: f64,
        mark_price: f64,
        _index_price: f64,
        _futures_price: f64,
        _open_interest: f64,
        _long_size: f64,
        _short_size: f64,
        _taker_buy_volume: f64,
        _taker_sell_volume: f64,
        _long_liquidation: f64,
        _short_liquidation: f64,
        _timestamp: i64,
    ) -> Result<Self, Error> {
        Ok(Self {
            funding_rate,
            mark_price,
        })
    }
}

#[derive(Debug, Clone, Copy)]
pub struct Member;

impl Member {
    pub fn new(_change: f64, _volume: f64, _new_high: bool, _new_low: bool) -> Self {
        Self
    }
}

#[derive(Debug, Clone)]
pub struct CrossSection;

impl CrossSection {
    pub fn new(_members: Vec<Member>, _timestamp: i64) -> Result<Self, Error> {
        Ok(Self)
    }
}
