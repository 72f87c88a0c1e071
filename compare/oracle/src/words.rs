//! Lines of words: 64 bits as 16 hex digits, one space between, and the groups of words that make a record.

use crate::data::Candle;
use crate::engine::reach::Account;
use crate::metrics::Metrics;
use crate::portfolio::{reach, Portfolio, Trade};
use crate::spec::{OrderType, Risk, Sizing, Slippage};
use crate::Settings;

/// The one pattern in which a NaN is written.
pub const NAN: u64 = 0x7ff8_0000_0000_0000;

const REASONS: [&str; 7] = [
    "",
    "signal",
    "stop_loss",
    "trailing_stop",
    "take_profit",
    "liquidation",
    "end",
];

/// The number of a reason; 0 for none of the six.
pub fn reason_number(reason: &str) -> u64 {
    REASONS.iter().position(|name| *name == reason).unwrap_or(0) as u64
}

pub fn reason_name(number: u64) -> &'static str {
    REASONS.get(number as usize).copied().unwrap_or("")
}

/// The order kinds of an entry, by their numbers.
pub const ORDER_TYPES: [OrderType; 4] = [
    OrderType::Market,
    OrderType::Limit,
    OrderType::Stop,
    OrderType::StopLimit,
];

pub fn order_number(kind: OrderType) -> u64 {
    ORDER_TYPES.iter().position(|one| *one == kind).unwrap_or(0) as u64
}

/// The bytes written in hex, two digits each.
pub fn bytes_of_hex(text: &str) -> Vec<u8> {
    let digit = |at: usize| u8::from_str_radix(&text[at..at + 2], 16).expect("two hex digits");
    (0..text.len() / 2).map(|i| digit(2 * i)).collect()
}

pub fn hex_of_bytes(bytes: &[u8]) -> String {
    bytes.iter().map(|byte| format!("{byte:02x}")).collect()
}

/// A line being read.
pub struct Words {
    list: Vec<u64>,
    at: usize,
}

impl Words {
    pub fn of(line: &str) -> Self {
        let word = |text: &str| u64::from_str_radix(text, 16).expect("a word in hex");
        Self {
            list: line.split_ascii_whitespace().map(word).collect(),
            at: 0,
        }
    }

    pub fn word(&mut self) -> u64 {
        let word = self.list[self.at];
        self.at += 1;
        word
    }

    pub fn is_done(&self) -> bool {
        self.at == self.list.len()
    }

    pub fn flag(&mut self) -> bool {
        self.word() != 0
    }

    pub fn number(&mut self) -> usize {
        self.word() as usize
    }

    pub fn time(&mut self) -> i64 {
        self.word() as i64
    }

    pub fn float(&mut self) -> f64 {
        f64::from_bits(self.word())
    }

    pub fn floats(&mut self, count: usize) -> Vec<f64> {
        (0..count).map(|_| self.float()).collect()
    }

    pub fn optional(&mut self) -> Option<f64> {
        let there = self.flag();
        let value = self.float();
        there.then_some(value)
    }

    pub fn sizing(&mut self) -> Sizing {
        let kind = self.word();
        let value = self.float();
        let lookback = self.word() as u32;
        match kind {
            0 => Sizing::FixedFraction { fraction: value },
            1 => Sizing::FixedQty { qty: value },
            2 => Sizing::FixedCash { cash: value },
            3 => Sizing::VolTarget {
                target_vol: value,
                lookback,
            },
            4 => Sizing::RiskPerTrade { risk_pct: value },
            _ => panic!("sizing kind {kind}"),
        }
    }

    pub fn slippage(&mut self) -> Slippage {
        let kind = self.word();
        let value = self.float();
        match kind {
            0 => Slippage::FixedBps { bps: value },
            1 => Slippage::VolumeImpact { coef: value },
            _ => panic!("slippage kind {kind}"),
        }
    }

    pub fn risk(&mut self) -> Risk {
        Risk {
            stop_loss_pct: self.optional(),
            trailing_stop_pct: self.optional(),
            take_profit_pct: self.optional(),
            max_leverage: self.optional(),
            max_position_pct: self.optional(),
            liquidation: self.flag(),
        }
    }

    pub fn candle(&mut self) -> Candle {
        Candle {
            time: self.time(),
            open: self.float(),
            high: self.float(),
            low: self.float(),
            close: self.float(),
            volume: self.float(),
        }
    }

    pub fn portfolio(&mut self) -> Portfolio {
        let (cash, qty, entry_price) = (self.float(), self.float(), self.float());
        let entry_time = self.time();
        let (entry_fee, fees_paid) = (self.float(), self.float());
        reach::held(cash, qty, entry_price, entry_time, entry_fee, fees_paid)
    }

    pub fn entry_bar(&mut self) -> Option<usize> {
        let there = self.flag();
        let bar = self.number();
        there.then_some(bar)
    }

    pub fn trade(&mut self) -> Trade {
        Trade {
            entry_time: self.time(),
            exit_time: self.time(),
            entry_price: self.float(),
            exit_price: self.float(),
            qty: self.float(),
            pnl: self.float(),
            return_pct: self.float(),
            reason: reason_name(self.word()).into(),
        }
    }

    pub fn order_type(&mut self) -> OrderType {
        let kind = self.number();
        *ORDER_TYPES.get(kind).unwrap_or_else(|| panic!("order kind {kind}"))
    }

    pub fn settings(&mut self) -> Settings {
        Settings {
            slots: self.number(),
            depth: self.number(),
            capital: self.float(),
            warmup: self.word() as u32,
            delay: self.word() as u32,
            sizing: self.sizing(),
            taker_bps: self.float(),
            slippage: self.slippage(),
            funding: self.flag(),
            risk: self.risk(),
            partial_fills: self.flag(),
            participation: self.float(),
            order_type: self.order_type(),
            level_pct: self.float(),
            limit_pct: self.float(),
            maker_bps: self.float(),
            lot: self.float(),
        }
    }
}

/// A line being written.
#[derive(Default, Clone)]
pub struct Line(Vec<u64>);

impl Line {
    pub fn new() -> Self {
        Self::default()
    }

    pub fn words(&self) -> &[u64] {
        &self.0
    }

    pub fn text(&self) -> String {
        let hex: Vec<String> = self.0.iter().map(|word| format!("{word:016x}")).collect();
        hex.join(" ")
    }

    pub fn word(mut self, word: u64) -> Self {
        self.0.push(word);
        self
    }

    pub fn flag(self, flag: bool) -> Self {
        self.word(u64::from(flag))
    }

    pub fn time(self, time: i64) -> Self {
        self.word(time as u64)
    }

    pub fn float(self, x: f64) -> Self {
        self.word(if x.is_nan() { NAN } else { x.to_bits() })
    }

    pub fn floats(self, list: &[f64]) -> Self {
        list.iter().fold(self, |line, &x| line.float(x))
    }

    pub fn optional(self, x: Option<f64>) -> Self {
        self.flag(x.is_some()).float(x.unwrap_or(0.0))
    }

    pub fn sizing(self, sizing: Sizing) -> Self {
        match sizing {
            Sizing::FixedFraction { fraction } => self.word(0).float(fraction).word(0),
            Sizing::FixedQty { qty } => self.word(1).float(qty).word(0),
            Sizing::FixedCash { cash } => self.word(2).float(cash).word(0),
            Sizing::VolTarget { target_vol, lookback } => self.word(3).float(target_vol).word(lookback.into()),
            Sizing::RiskPerTrade { risk_pct } => self.word(4).float(risk_pct).word(0),
        }
    }

    pub fn slippage(self, slippage: Slippage) -> Self {
        match slippage {
            Slippage::FixedBps { bps } => self.word(0).float(bps),
            Slippage::VolumeImpact { coef } => self.word(1).float(coef),
            Slippage::Spread => panic!("order books are outside the port"),
        }
    }

    pub fn risk(self, risk: &Risk) -> Self {
        self.optional(risk.stop_loss_pct)
            .optional(risk.trailing_stop_pct)
            .optional(risk.take_profit_pct)
            .optional(risk.max_leverage)
            .optional(risk.max_position_pct)
            .flag(risk.liquidation)
    }

    pub fn candle(self, candle: &Candle) -> Self {
        let prices = [candle.open, candle.high, candle.low, candle.close, candle.volume];
        self.time(candle.time).floats(&prices)
    }

    pub fn portfolio(self, portfolio: &Portfolio) -> Self {
        self.floats(&[portfolio.cash, portfolio.qty, portfolio.entry_price])
            .time(portfolio.entry_time)
            .floats(&[reach::entry_fee(portfolio), portfolio.fees_paid])
    }

    pub fn entry_bar(self, bar: Option<usize>) -> Self {
        self.flag(bar.is_some()).word(bar.unwrap_or(0) as u64)
    }

    pub fn account(self, account: &Account) -> Self {
        self.portfolio(&account.portfolio).entry_bar(account.entry_bar)
    }

    pub fn trade(self, trade: &Trade) -> Self {
        self.time(trade.entry_time)
            .time(trade.exit_time)
            .floats(&[
                trade.entry_price,
                trade.exit_price,
                trade.qty,
                trade.pnl,
                trade.return_pct,
            ])
            .word(reason_number(&trade.reason))
    }

    pub fn maybe_trade(self, trade: Option<&Trade>) -> Self {
        match trade {
            Some(trade) => self.word(1).trade(trade),
            None => (0..9).fold(self, |line, _| line.word(0)),
        }
    }

    pub fn metrics(self, m: &Metrics) -> Self {
        self.floats(&[m.pnl, m.return_pct, m.sharpe, m.sortino])
            .floats(&[m.calmar, m.max_drawdown, m.win_rate, m.profit_factor])
            .word(m.num_trades as u64)
    }

    pub fn settings(self, s: &Settings) -> Self {
        self.word(s.slots as u64)
            .word(s.depth as u64)
            .float(s.capital)
            .word(s.warmup.into())
            .word(s.delay.into())
            .sizing(s.sizing)
            .float(s.taker_bps)
            .slippage(s.slippage)
            .flag(s.funding)
            .risk(&s.risk)
            .flag(s.partial_fills)
            .float(s.participation)
            .word(order_number(s.order_type))
            .floats(&[s.level_pct, s.limit_pct, s.maker_bps, s.lot])
    }
}
