//! A line in, the line that answers it out. The formats stand in compare/README.md.

use crate::data::DerivativesTick;
use crate::engine::reach as engine;
use crate::engine::reach::{Account, During, Run};
use crate::error::BacktestError;
use crate::portfolio::Trade;
use crate::rules::{eval_condition, BarRow, RuleState};
use crate::spec::{OrderType, Risk, Sizing, Slippage, StrategySpec};
use crate::table::{row_of, slots_of, Table};
use crate::words::{bytes_of_hex, reason_name, reason_number, Line, Words};
use crate::{by_reading, metrics_of, root, run_of, spec_of, Reading, Settings};

/// `x` → its root.
pub fn root_line(line: &str) -> String {
    Line::new().float(root(Words::of(line).float())).text()
}

/// `M initial n equity.. m trades..` → the nine figures.
pub fn metrics_line(line: &str, reading: Reading) -> String {
    let mut words = Words::of(line.strip_prefix("M ").expect("a line of metrics begins with M"));
    let initial = words.float();
    let points = words.number();
    let equity = words.floats(points);
    let count = words.number();
    let trades: Vec<Trade> = (0..count).map(|_| words.trade()).collect();
    assert!(words.is_done(), "words left over");
    Line::new()
        .metrics(&metrics_of(initial, &equity, &trades, reading))
        .text()
}

/// A leaf, by the tag that is its first word.
pub fn leaf_line(line: &str) -> String {
    let mut words = Words::of(line);
    let answer = match words.word() {
        1 => size(&mut words),
        2 => realized_vol(&mut words),
        3 => slippage_rate(&mut words),
        4 => execute_entry(&mut words),
        5 => execute_exit(&mut words),
        6 => apply_intrabar_exits(&mut words),
        7 => intrabar_exit(&mut words),
        8 => enter(&mut words),
        9 => exit(&mut words),
        10 => apply_funding(&mut words),
        11 => equity(&mut words),
        12 => charge_funding(&mut words),
        tag => panic!("tag {tag}"),
    };
    assert!(words.is_done(), "words left over");
    answer.text()
}

fn size(words: &mut Words) -> Line {
    let (sizing, risk) = (words.sizing(), words.risk());
    let (equity, price, rv) = (words.float(), words.float(), words.optional());
    let size = engine::size(sizing, &risk, equity, price, rv);
    Line::new().optional(size.expect("risk sizing has a stop loss"))
}

fn realized_vol(words: &mut Words) -> Line {
    let (lookback, rows) = (words.number(), words.number());
    let closes = words.floats(rows);
    Line::new().optional(engine::realized_vol(&closes, lookback))
}

fn slippage_rate(words: &mut Words) -> Line {
    let slippage = words.slippage();
    let (qty, volume) = (words.float(), words.float());
    Line::new().float(engine::slippage_rate(slippage, qty, volume))
}

/// Settings in which nothing costs and nothing is limited.
pub fn bare_settings() -> Settings {
    Settings {
        slots: 0,
        depth: 1,
        capital: 0.0,
        warmup: 0,
        delay: 0,
        sizing: Sizing::FixedQty { qty: 0.0 },
        taker_bps: 0.0,
        slippage: Slippage::FixedBps { bps: 0.0 },
        funding: false,
        risk: Risk::default(),
        partial_fills: false,
        participation: 0.0,
        order_type: OrderType::Market,
        level_pct: 0.0,
        limit_pct: 0.0,
        maker_bps: 0.0,
        lot: 0.0,
    }
}

/// A spec with these settings and no rules: what the leaves look up.
fn costs_and_limits(settings: &Settings) -> StrategySpec {
    let no_rules = Table {
        slots: 0,
        trees: [None, None, None, None],
    };
    spec_of(settings, &no_rules, Reading::Rust)
}

fn execute_entry(words: &mut Words) -> Line {
    let (side, raw_price) = (words.word(), words.float());
    let spec = costs_and_limits(&Settings {
        sizing: words.sizing(),
        risk: words.risk(),
        slippage: words.slippage(),
        taker_bps: words.float(),
        partial_fills: words.flag(),
        participation: words.float(),
        ..bare_settings()
    });
    let candle = words.candle();
    let mut account = Account {
        portfolio: words.portfolio(),
        entry_bar: words.entry_bar(),
        extreme: words.float(),
    };
    let (bar, rows) = (words.number(), words.number());
    let closes = words.floats(rows);
    engine::execute_entry(&spec, side, raw_price, &candle, &closes, bar, &mut account)
        .expect("risk sizing has a stop loss");
    Line::new().account(&account).float(account.extreme)
}

fn execute_exit(words: &mut Words) -> Line {
    let raw_price = words.float();
    let spec = costs_and_limits(&Settings {
        slippage: words.slippage(),
        taker_bps: words.float(),
        ..bare_settings()
    });
    let candle = words.candle();
    let mut account = Account {
        portfolio: words.portfolio(),
        entry_bar: words.entry_bar(),
        extreme: 0.0,
    };
    engine::execute_exit(&spec, raw_price, &candle, &mut account);
    Line::new()
        .account(&account)
        .maybe_trade(account.portfolio.trades.first())
}

fn apply_intrabar_exits(words: &mut Words) -> Line {
    let spec = costs_and_limits(&Settings {
        risk: words.risk(),
        taker_bps: words.float(),
        ..bare_settings()
    });
    let candle = words.candle();
    let account = Account {
        portfolio: words.portfolio(),
        entry_bar: words.entry_bar(),
        extreme: words.float(),
    };
    let after = engine::apply_intrabar_exits(&spec, &candle, account).expect("a spec without rules is accepted");
    let trade = after.portfolio.trades.first();
    Line::new().account(&after).float(after.extreme).maybe_trade(trade)
}

fn intrabar_exit(words: &mut Words) -> Line {
    let (risk, candle) = (words.risk(), words.candle());
    let (entry, extreme, is_long) = (words.float(), words.float(), words.flag());
    match engine::intrabar_exit(&candle, &risk, entry, extreme, is_long) {
        Some((price, reason)) => Line::new().word(reason_number(reason)).float(price),
        None => Line::new().word(0).word(0),
    }
}

fn enter(words: &mut Words) -> Line {
    let mut portfolio = words.portfolio();
    let (qty, price, time, fee) = (words.float(), words.float(), words.time(), words.float());
    portfolio.enter(qty, price, time, fee);
    Line::new().portfolio(&portfolio)
}

fn exit(words: &mut Words) -> Line {
    let mut portfolio = words.portfolio();
    let (price, time, fee, reason) = (words.float(), words.time(), words.float(), words.word());
    portfolio.exit(price, time, fee, reason_name(reason));
    Line::new().portfolio(&portfolio).trade(&portfolio.trades[0])
}

fn apply_funding(words: &mut Words) -> Line {
    let mut portfolio = words.portfolio();
    portfolio.apply_funding(words.float());
    Line::new().portfolio(&portfolio)
}

fn equity(words: &mut Words) -> Line {
    let portfolio = words.portfolio();
    let equity = portfolio.equity(words.float());
    Line::new()
        .float(equity)
        .flag(portfolio.in_position())
        .flag(portfolio.is_long())
}

/// A tick that carries a mark and a rate.
pub fn tick_of(mark_price: f64, funding_rate: f64) -> DerivativesTick {
    DerivativesTick {
        funding_rate,
        mark_price,
        index_price: mark_price,
        futures_price: mark_price,
        open_interest: 0.0,
        long_size: 0.0,
        short_size: 0.0,
        taker_buy_volume: 0.0,
        taker_sell_volume: 0.0,
        long_liquidation: 0.0,
        short_liquidation: 0.0,
        timestamp: 0,
    }
}

/// Whether funding is supplied, the mark and the rate.
fn funding_of(words: &mut Words) -> Option<DerivativesTick> {
    let supplied = words.flag();
    let (mark, rate) = (words.float(), words.float());
    supplied.then(|| tick_of(mark, rate))
}

fn charge_funding(words: &mut Words) -> Line {
    let spec = costs_and_limits(&Settings {
        funding: words.flag(),
        ..bare_settings()
    });
    let tick = funding_of(words);
    let account = Account {
        portfolio: words.portfolio(),
        entry_bar: None,
        extreme: 0.0,
    };
    let after = engine::charge_funding(&spec, tick.as_ref(), account).expect("a spec without rules is accepted");
    Line::new().portfolio(&after.portfolio)
}

/// `table rows.. state` → the answer of each tree at the newest bar.
pub fn rule_line(line: &str) -> String {
    let (table, rest) = line.split_once(' ').expect("a table and words");
    let table = Table::of(&bytes_of_hex(table));
    let mut words = Words::of(rest);
    let count = words.number();
    let rows: Vec<BarRow> = (0..count).map(|_| row_of(&mut words, table.slots)).collect();
    let qty = words.float();
    let entry_bar = words.entry_bar();
    let bars_seen = words.number();
    assert!(words.is_done(), "words left over");
    let in_position = qty.abs() > f64::EPSILON;
    let since = entry_bar
        .filter(|_| in_position)
        .map(|bar| (bars_seen - 1 - bar) as u32);
    let state = RuleState {
        in_position,
        bars_since_entry: since,
    };
    let newest = rows.len().saturating_sub(1);
    let holds = |tree: &Option<_>| tree.as_ref().is_some_and(|c| eval_condition(c, &rows, newest, state));
    table
        .trees
        .iter()
        .fold(Line::new(), |answer, tree| answer.flag(holds(tree)))
        .text()
}

/// A run, line by line: `R` settings, `T` table, `B` bar, `F` finish.
pub struct Runs {
    reading: Reading,
    settings: Option<Settings>,
    run: Option<Run>,
}

impl Runs {
    pub fn new(reading: Reading) -> Self {
        Self {
            reading,
            settings: None,
            run: None,
        }
    }

    /// The answer to a line; nothing to `R` and `T`.
    pub fn line(&mut self, line: &str) -> Option<String> {
        let (letter, rest) = line.split_once(' ').unwrap_or((line, ""));
        match letter {
            "R" => self.settings = Some(Words::of(rest).settings()),
            "T" => self.start(&Table::of(&bytes_of_hex(rest))),
            "B" => return Some(self.bar(Words::of(rest))),
            "F" => return Some(self.finish()),
            _ => panic!("a line of a run begins with R, T, B or F"),
        }
        None
    }

    fn start(&mut self, table: &Table) {
        let settings = self.settings.expect("R stands before T");
        assert_eq!(settings.slots, table.slots, "K is the table's");
        let spec = spec_of(&settings, table, self.reading);
        assert!(settings.depth >= engine::history_depth(&spec), "D is too small");
        self.run = Some(run_of(&settings, table, self.reading).expect("a spec that the original accepts"));
    }

    fn bar(&mut self, mut words: Words) -> String {
        let run = self.run.as_mut().expect("T stands before B");
        let candle = words.candle();
        let mask = words.word();
        let slots = slots_of(&mut words, mask, self.settings.expect("R stands before B").slots);
        let tick = funding_of(&mut words);
        assert!(words.is_done(), "words left over");
        if self.reading == Reading::Paper && run.is_turned_away(&candle).expect("sizing that the original takes") {
            return TURNED_AWAY.into();
        }
        let closed = run.latest().1.len();
        if let Err(refusal) = run.step(&candle, &slots, tick.as_ref()) {
            return refused(&refusal);
        }
        let (point, trades) = run.latest();
        let point = point.expect("every bar marks equity");
        let line = Line::new().time(point.time).float(point.equity);
        match &trades[closed..] {
            [trade] => closed_line(line, trade, run.noted().1.last()).text(),
            _ => line.text(),
        }
    }

    fn finish(&mut self) -> String {
        let run = self.run.take().expect("T stands before F");
        let closed = run.latest().1.len();
        let (report, during) = run.finish();
        let line = Line::new().metrics(&by_reading(report.metrics, self.reading));
        let noted = (self.reading == Reading::Paper).then_some(&during);
        match &report.trades[closed..] {
            [trade] => closed_line(line, trade, noted).text(),
            _ => line.text(),
        }
    }
}

/// A trade after other words: the text's eight, and the two of request 6 where they are known (`Reading::Paper`).
fn closed_line(line: Line, trade: &Trade, noted: Option<&During>) -> Line {
    let line = line.trade(trade);
    match noted {
        Some(during) => line.floats(&[during.funding, during.worst]),
        None => line,
    }
}

/// What a bar of too many lots is answered with: refusal 16, at the bars seen.
const TURNED_AWAY: &str = "refused 16";

/// What the original refuses and document 01 does not (`Reading::Rust` only).
fn refused(refusal: &BacktestError) -> String {
    format!("refused {refusal:?}")
}
