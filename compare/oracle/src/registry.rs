//! Stand-in for the indicator registry: indicator number k hands out what the caller supplied for slot k on this bar.

use std::cell::RefCell;
use std::collections::BTreeMap;

use wickra_core::{CrossSection, DerivativesTick, OrderBook, Trade};

use crate::data::Candle;
use crate::error::Result;
use crate::spec::{Feed, IndicatorSpec};

/// What the engine offers an indicator on each bar. A slot needs none of it.
#[allow(dead_code)]
pub struct BarInput<'a> {
    pub candle: &'a Candle,
    pub reference: Option<f64>,
    pub deriv: Option<DerivativesTick>,
    pub orderbook: Option<&'a OrderBook>,
    pub trades: &'a [Trade],
    pub cross_section: Option<&'a CrossSection>,
}

pub trait EvalIndicator {
    fn update(&mut self, input: &BarInput) -> Option<f64>;
    fn fields(&self) -> Vec<(&'static str, f64)>;
    fn warmup(&self) -> usize;
}

thread_local! {
    static SLOTS: RefCell<Vec<Option<f64>>> = const { RefCell::new(Vec::new()) };
}

/// The slots of the bar about to be stepped.
pub fn supply(slots: &[Option<f64>]) {
    SLOTS.with(|held| {
        let mut held = held.borrow_mut();
        held.clear();
        held.extend_from_slice(slots);
    });
}

struct Slot(usize);

impl EvalIndicator for Slot {
    fn update(&mut self, _input: &BarInput) -> Option<f64> {
        SLOTS.with(|held| held.borrow().get(self.0).copied().flatten())
    }

    fn fields(&self) -> Vec<(&'static str, f64)> {
        Vec::new()
    }

    fn warmup(&self) -> usize {
        0
    }
}

pub fn build(_kind: &str, params: &[f64]) -> Result<Box<dyn EvalIndicator>> {
    Ok(Box::new(Slot(params[0] as usize)))
}

pub fn feed_of(_kind: &str) -> Option<Feed> {
    None
}

/// The name under which a rule refers to slot k.
pub fn slot_name(k: usize) -> String {
    format!("slot{k}")
}

/// The declarations of slots 0 to `count` - 1.
pub fn slots(count: usize) -> BTreeMap<String, IndicatorSpec> {
    let declared = |k: usize| IndicatorSpec {
        kind: "Slot".into(),
        params: vec![k as f64],
        feed: None,
    };
    (0..count).map(|k| (slot_name(k), declared(k))).collect()
}
