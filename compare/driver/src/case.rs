//! A case: settings, a table and bars; and the words in which the C interface takes them.

use oracle::lists::runs::{run_lines, Bar};
use oracle::spec::{Sizing, Slippage};
use oracle::table::{slots_of, Table};
use oracle::words::{bytes_of_hex, order_number, Words};
use oracle::Settings;
use yshturpa::layout::{GIVEN, SETTING_WORDS};

/// What stands in words that must not be looked at: a NaN of an odd pattern.
pub const JUNK: u64 = 0xfff4_dead_beef_f00d;

#[derive(Debug, Clone)]
pub struct Case {
    pub settings: Settings,
    pub table: Table,
    pub bars: Vec<Bar>,
}

impl Case {
    /// The lines that the oracle and `driver replay` read.
    pub fn lines(&self) -> Vec<String> {
        run_lines(&self.settings, &self.table, &self.bars)
    }

    /// The cases of a list of runs.
    pub fn of_lines(lines: &[String]) -> Vec<Self> {
        lines.split_inclusive(|line| line == "F").map(Self::of_run).collect()
    }

    fn of_run(lines: &[String]) -> Self {
        let rest = |letter: &str, line: &str| line.strip_prefix(letter).map(str::to_string);
        let settings = Words::of(&rest("R ", &lines[0]).expect("a run begins with R")).settings();
        let table = Table::of(&bytes_of_hex(&rest("T ", &lines[1]).expect("T stands after R")));
        let bars = lines[2..].iter().filter_map(|line| rest("B ", line));
        Self {
            settings,
            bars: bars.map(|words| bar_of(&mut Words::of(&words), table.slots)).collect(),
            table,
        }
    }
}

fn bar_of(words: &mut Words, slots: usize) -> Bar {
    let candle = words.candle();
    let mask = words.word();
    let slots = slots_of(words, mask, slots);
    let supplied = words.flag();
    let (mark, rate) = (words.float(), words.float());
    Bar {
        candle,
        slots,
        funding: supplied.then_some((mark, rate)),
    }
}

/// The settings' words; where a value is not in use there is junk.
pub fn setting_words(s: &Settings) -> [u64; SETTING_WORDS] {
    let (sizing_kind, sizing_value, lookback) = match s.sizing {
        Sizing::FixedFraction { fraction } => (0, fraction, JUNK),
        Sizing::FixedQty { qty } => (1, qty, JUNK),
        Sizing::FixedCash { cash } => (2, cash, JUNK),
        Sizing::VolTarget { target_vol, lookback } => (3, target_vol, lookback.into()),
        Sizing::RiskPerTrade { risk_pct } => (4, risk_pct, JUNK),
    };
    let (slippage_kind, slippage_value) = match s.slippage {
        Slippage::FixedBps { bps } => (0, bps),
        Slippage::VolumeImpact { coef } => (1, coef),
        Slippage::Spread => panic!("order books are outside the port"),
    };
    let optional = [
        s.risk.stop_loss_pct,
        s.risk.trailing_stop_pct,
        s.risk.take_profit_pct,
        s.risk.max_leverage,
        s.risk.max_position_pct,
    ];
    let mut words = [0; SETTING_WORDS];
    words[..12].copy_from_slice(&[
        s.slots as u64,
        s.depth as u64,
        s.capital.to_bits(),
        s.warmup.into(),
        s.delay.into(),
        sizing_kind,
        sizing_value.to_bits(),
        lookback,
        s.taker_bps.to_bits(),
        slippage_kind,
        slippage_value.to_bits(),
        s.funding.into(),
    ]);
    for (i, level) in optional.into_iter().enumerate() {
        words[12 + i] = level.map_or(JUNK, f64::to_bits);
        words[GIVEN] |= u64::from(level.is_some()) << (12 + i);
    }
    words[17] = s.risk.liquidation.into();
    words[18] = s.partial_fills.into();
    words[19] = s.participation.to_bits();
    words[20] = order_number(s.order_type);
    words[21..25].copy_from_slice(&[s.level_pct, s.limit_pct, s.maker_bps, s.lot].map(f64::to_bits));
    words
}

fn mask(bar: &Bar) -> u64 {
    let bit = |(k, slot): (usize, &Option<f64>)| u64::from(slot.is_some()) << k;
    bar.slots.iter().enumerate().map(bit).sum()
}

fn with_slots(bar: &Bar, absent: u64) -> Vec<u64> {
    let c = &bar.candle;
    let mut words = vec![c.time as u64];
    words.extend([c.open, c.high, c.low, c.close, c.volume].map(f64::to_bits));
    words.push(mask(bar));
    words.extend(bar.slots.iter().map(|slot| slot.map_or(absent, f64::to_bits)));
    words
}

/// A bar as it is handed over; where a slot is absent or funding not supplied there is junk.
pub fn bar_words(bar: &Bar) -> Vec<u64> {
    let mut words = with_slots(bar, JUNK);
    words.extend(match bar.funding {
        Some((mark, rate)) => [1, mark.to_bits(), rate.to_bits()],
        None => [0, JUNK, JUNK],
    });
    words
}

/// A row as it is kept: an absent slot's word is 0.
pub fn row_words(bar: &Bar) -> Vec<u64> {
    with_slots(bar, 0)
}
