//! A child of the text's `engine`: calls of what is private there, and a run bar by bar.

use super::*;
use crate::registry;
use crate::Reading;

/// The side of an entry, by its number: 0 long, 1 short.
fn side_of(number: u64) -> Side {
    if number == 0 {
        Side::Long
    } else {
        Side::Short
    }
}

/// Rows in which only the close matters.
fn rows_of(closes: &[f64]) -> Vec<BarRow> {
    let row = |&close: &f64| BarRow {
        candle: Candle {
            time: 0,
            open: close,
            high: close,
            low: close,
            close,
            volume: 0.0,
        },
        values: BTreeMap::new(),
    };
    closes.iter().map(row).collect()
}

pub fn size(sizing: Sizing, risk: &Risk, equity: f64, price: f64, rv: Option<f64>) -> Result<Option<f64>> {
    super::size(sizing, risk, equity, price, rv)
}

pub fn realized_vol(closes: &[f64], lookback: usize) -> Option<f64> {
    super::realized_vol(&rows_of(closes), lookback)
}

pub fn slippage_rate(slippage: Slippage, qty: f64, volume: f64) -> f64 {
    super::slippage_rate(slippage, None, qty, volume)
}

pub fn intrabar_exit(candle: &Candle, risk: &Risk, entry: f64, extreme: f64, is_long: bool) -> Option<(f64, &'static str)> {
    super::intrabar_exit(candle, risk, entry, extreme, is_long)
}

/// What an entry waits for: 0 nothing, 1 a limit, 2 a stop, 3 a stop and then a limit; its level, and a stop-limit's limit.
#[derive(Debug, Clone, Copy, PartialEq)]
pub struct Waits {
    pub kind: u64,
    pub level: f64,
    pub limit: f64,
}

impl Waits {
    pub const NOTHING: Self = Self { kind: 0, level: 0.0, limit: 0.0 };

    fn of(trigger: Option<(f64, LevelKind)>) -> Self {
        match trigger {
            None => Self::NOTHING,
            Some((level, LevelKind::Limit)) => Self { kind: 1, level, limit: 0.0 },
            Some((level, LevelKind::Stop)) => Self { kind: 2, level, limit: 0.0 },
            Some((level, LevelKind::StopLimit { limit })) => Self { kind: 3, level, limit },
        }
    }

    fn trigger(self) -> Option<(f64, LevelKind)> {
        let kind = match self.kind {
            1 => LevelKind::Limit,
            2 => LevelKind::Stop,
            3 => LevelKind::StopLimit { limit: self.limit },
            _ => return None,
        };
        Some((self.level, kind))
    }
}

/// The price at which an entry that waits for a level fills on a bar, before slippage; nothing where the bar does not reach it.
pub fn level_fill(side: u64, waits: Waits, candle: &Candle, reading: Reading) -> Option<f64> {
    let (level, kind) = waits.trigger()?;
    match reading {
        Reading::Rust => super::level_fill(side_of(side), level, kind, candle),
        Reading::Paper => fill_by_request(side_of(side), level, kind, candle),
    }
}

/// The price at which an entry fills on a bar, before slippage, by the requests' words: the open where it waits for nothing.
pub fn raw_price(side: u64, waits: Waits, candle: &Candle) -> Option<f64> {
    match waits.trigger() {
        None => Some(candle.open),
        Some((level, kind)) => fill_by_request(side_of(side), level, kind, candle),
    }
}

/// Request 1's words: a stop-limit that reaches its stop fills at the stop's price where that is no worse than the limit, else at the limit
/// where the bar reaches it. A limit and a stop fill as in the text.
fn fill_by_request(side: Side, level: f64, kind: LevelKind, candle: &Candle) -> Option<f64> {
    let LevelKind::StopLimit { limit } = kind else {
        return super::level_fill(side, level, kind, candle);
    };
    let price = super::level_fill(side, level, LevelKind::Stop, candle)?;
    let (no_worse, reached) = match side {
        Side::Long => (price <= limit, candle.low <= limit),
        Side::Short => (price >= limit, candle.high >= limit),
    };
    if no_worse {
        return Some(price);
    }
    reached.then_some(limit)
}

/// What an account holds besides its rows: what fills and exits change.
#[derive(Clone)]
pub struct Account {
    pub portfolio: Portfolio,
    pub entry_bar: Option<usize>,
    pub extreme: f64,
}

/// A market entry at `raw_price` on bar number `bar`, with the closes of the rows before it; by request 7 one that leaves the account flat is
/// dropped.
pub fn execute_entry(
    spec: &StrategySpec,
    side: u64,
    raw_price: f64,
    candle: &Candle,
    closes: &[f64],
    bar: usize,
    account: &mut Account,
) -> Result<()> {
    let history = rows_of(closes);
    let ctx = context(spec, candle, &history, bar);
    let before = account.clone();
    let Account { portfolio, entry_bar, extreme } = account;
    super::execute_entry(side_of(side), raw_price, false, &ctx, portfolio, entry_bar, extreme)?;
    if !account.portfolio.in_position() {
        *account = before;
    }
    Ok(())
}

/// A market exit by signal at `raw_price`.
pub fn execute_exit(spec: &StrategySpec, raw_price: f64, candle: &Candle, account: &mut Account) {
    let ctx = context(spec, candle, &[], 0);
    super::execute_exit("signal", raw_price, &ctx, &mut account.portfolio, &mut account.entry_bar);
}

fn context<'a>(spec: &'a StrategySpec, candle: &'a Candle, history: &'a [BarRow], bar: usize) -> FillCtx<'a> {
    FillCtx {
        spec,
        candle,
        history,
        orderbook: None,
        maker: 0.0,
        taker: spec.costs.taker_bps / 10_000.0,
        bar,
    }
}

/// The step's third part on an account: the favourable extreme, the levels, liquidation.
pub fn apply_intrabar_exits(spec: &StrategySpec, candle: &Candle, account: Account) -> Result<Account> {
    within_a_run(spec, account, |run| run.apply_intrabar_exits(&bar_of(candle, None, 0)))
}

/// The step's fourth part on an account: funding, where a tick is supplied.
pub fn charge_funding(spec: &StrategySpec, tick: Option<&DerivativesTick>, account: Account) -> Result<Account> {
    let candle = rows_of(&[0.0])[0].candle;
    within_a_run(spec, account, |run| run.charge_funding(&bar_of(&candle, tick, 0)))
}

fn within_a_run(spec: &StrategySpec, account: Account, part: impl Fn(&mut StreamingBacktest)) -> Result<Account> {
    let mut run = StreamingBacktest::new(spec, 0.0)?;
    run.pf = account.portfolio;
    run.entry_bar = account.entry_bar;
    run.extreme = account.extreme;
    part(&mut run);
    Ok(Account {
        portfolio: run.pf,
        entry_bar: run.entry_bar,
        extreme: run.extreme,
    })
}

fn bar_of<'a>(candle: &'a Candle, tick: Option<&DerivativesTick>, index: usize) -> Bar<'a> {
    Bar {
        candle,
        reference: None,
        deriv: tick.and_then(|d| d.to_core().ok()),
        orderbook: None,
        cross_section: None,
        trades: Vec::new(),
        index,
    }
}

/// How much an entry orders in whole lots (request 5), which the text does not have.
#[derive(Debug, Clone, Copy, PartialEq)]
pub enum Lots {
    Nothing,
    TooLarge,
    Of(f64),
}

/// The quantity as the largest whole number of lots in it; a lot of 0 leaves it as it is.
fn in_lots(qty: f64, lot: f64) -> Lots {
    let quotient = qty / lot;
    if lot == 0.0 {
        Lots::Of(qty)
    } else if quotient >= 2f64.powi(53) {
        Lots::TooLarge
    } else if quotient >= 1.0 {
        Lots::Of(quotient.floor() * lot)
    } else {
        Lots::Nothing
    }
}

/// What of the settings an entry is sized by.
#[derive(Debug, Clone, Copy)]
pub struct Order {
    pub sizing: Sizing,
    pub risk: Risk,
    pub slippage: Slippage,
    pub participation: Option<f64>,
    pub lot: f64,
}

impl Order {
    /// `size`, in lots.
    fn size(&self, cash: f64, price: f64, rv: Option<f64>) -> Result<Lots> {
        let sized = super::size(self.sizing, &self.risk, cash, price, rv)?;
        Ok(sized.map_or(Lots::Nothing, |qty| in_lots(qty, self.lot)))
    }

    /// The fill price of an entry at `raw_price` and its quantity: `execute_entry` with lots after the leverage cap, in the probe, and
    /// after the partial-fill cap.
    pub fn fill(&self, dir: f64, raw_price: f64, volume: f64, cash: f64, rv: Option<f64>) -> Result<(f64, Lots)> {
        let probe = match self.slippage {
            Slippage::VolumeImpact { .. } => self.size(cash, raw_price, rv)?,
            _ => Lots::Nothing,
        };
        let probe_qty = match probe {
            Lots::Nothing => 0.0,
            Lots::TooLarge => return Ok((raw_price, Lots::TooLarge)),
            Lots::Of(qty) => qty,
        };
        let fill = raw_price * (1.0 + dir * super::slippage_rate(self.slippage, None, probe_qty, volume));
        let quantity = match (self.size(cash, fill, rv)?, self.participation) {
            (Lots::Of(qty), Some(share)) => in_lots(qty.min(share * volume), self.lot),
            (other, _) => other,
        };
        Ok((fill, quantity))
    }
}

/// Request 6: what a trade has paid in funding, and its least favourable price. The text has neither: both are worked out here.
#[derive(Debug, Clone, Copy, Default)]
pub struct During {
    pub funding: f64,
    pub worst: f64,
}

impl During {
    /// A bar's low for a long, its high for a short.
    fn takes(&mut self, candle: &Candle, long: bool) {
        let price = if long { candle.low } else { candle.high };
        let worse = if long { price < self.worst } else { price > self.worst };
        if worse || self.worst.is_nan() {
            self.worst = price;
        }
    }
}

/// A run, bar by bar.
pub struct Run {
    text: StreamingBacktest<'static>,
    lot: f64,
    reading: Reading,
    /// Of the open trade, and of each closed one (`Reading::Paper` only).
    during: During,
    noted: Vec<During>,
}

impl Run {
    pub fn new(spec: StrategySpec, capital: f64, lot: f64, reading: Reading) -> Result<Self> {
        let text = StreamingBacktest::new_owned(spec, capital)?;
        Ok(Self {
            text,
            lot,
            reading,
            during: During::default(),
            noted: Vec::new(),
        })
    }

    /// Whether an entry is due at this bar, reached, and of too many lots.
    pub fn is_turned_away(&self, candle: &Candle) -> Result<bool> {
        match entry_due(&self.text, candle) {
            Some(due) => Ok(self.entry_at(candle, due)?.1 == Lots::TooLarge),
            None => Ok(false),
        }
    }

    /// The fill price and quantity of an entry that is due.
    fn entry_at(&self, candle: &Candle, due: Due) -> Result<(f64, Lots)> {
        let run = &self.text;
        let order = Order {
            sizing: run.spec.sizing,
            risk: run.spec.risk,
            slippage: run.spec.costs.slippage,
            participation: run.spec.execution.partial_fills.then(|| run.spec.execution.max_participation.unwrap_or(0.0)),
            lot: self.lot,
        };
        let rv = match order.sizing {
            Sizing::VolTarget { lookback, .. } => super::realized_vol(&run.history, lookback as usize),
            _ => None,
        };
        order.fill(due.dir, due.raw_price, candle.volume, run.pf.cash, rv)
    }

    /// The entry that is due, in lots; one of at most EPS is dropped, as one of nothing.
    fn enter_in_lots(&mut self, candle: &Candle, due: Due) -> Result<()> {
        let (fill, quantity) = self.entry_at(candle, due)?;
        let run = &mut self.text;
        run.pending = None;
        if let Lots::Of(qty) = quantity {
            if qty > f64::EPSILON {
                let rate = if due.maker { run.maker } else { run.taker };
                run.pf.enter(due.dir * qty, fill, candle.time, qty * fill * rate);
                run.entry_bar = Some(run.bars_seen);
                run.extreme = fill;
            }
        }
        Ok(())
    }

    /// One bar with its slots and, where supplied, its derivatives tick.
    pub fn step(&mut self, candle: &Candle, slots: &[Option<f64>], tick: Option<&DerivativesTick>) -> Result<()> {
        registry::supply(slots);
        match self.reading {
            Reading::Rust => {
                let feeds = Feeds { deriv: tick, ..Default::default() };
                self.text.step_with_feeds(candle, &feeds)
            }
            Reading::Paper => self.step_by_paper(candle, tick),
        }
    }

    /// The parts of `step_with_feeds`, in its order, with five departures: a bar without funding is not refused and nothing is decided
    /// while an order works (document 01), an entry of at most EPS is dropped (request 7), a stop-limit fills by request 1's words, and with
    /// a lot an entry is in lots (request 5). Beside them what request 6 adds to a trade is kept.
    fn step_by_paper(&mut self, candle: &Candle, tick: Option<&DerivativesTick>) -> Result<()> {
        let bar = bar_of(candle, tick, self.text.bars_seen);
        self.text.last = Some((candle.time, candle.close));
        let open = self.text.pf.in_position();
        if open {
            self.during.takes(candle, self.text.pf.is_long());
        }
        match entry_due(&self.text, candle) {
            Some(due) if self.lot != 0.0 => self.enter_in_lots(candle, due)?,
            _ => fill_but_no_dust(&mut self.text, &bar)?,
        }
        let run = &mut self.text;
        if !open && run.pf.in_position() {
            self.during = During {
                funding: 0.0,
                worst: run.pf.entry_price,
            };
            self.during.takes(candle, run.pf.is_long());
        }
        let idx = run.record_bar(&bar);
        run.apply_intrabar_exits(&bar);
        self.noted.resize(run.pf.trades.len(), self.during);
        run.charge_funding(&bar);
        if let Some(tick) = tick.filter(|_| run.spec.costs.funding && run.pf.in_position()) {
            self.during.funding += run.pf.qty * tick.mark_price * tick.funding_rate;
        }
        run.mark_equity(&bar);
        if run.pending.is_some() {
            return Ok(());
        }
        run.decide_next_action(&bar, idx)
    }

    /// The newest equity point, and how many trades have been closed.
    pub fn latest(&self) -> (Option<EquityPoint>, &[crate::portfolio::Trade]) {
        (self.text.latest_equity(), &self.text.pf.trades)
    }

    /// What request 6 adds to the open trade, and to each closed one.
    pub fn noted(&self) -> (During, &[During]) {
        (self.during, &self.noted)
    }

    /// What the run holds between two bars.
    pub fn held(&self) -> Held<'_> {
        let run = &self.text;
        let order = run.pending.as_ref().map(|pending| {
            let (number, waits) = match pending.action {
                Action::Enter { side: Side::Long, trigger } => (1, Waits::of(trigger)),
                Action::Enter { side: Side::Short, trigger } => (2, Waits::of(trigger)),
                Action::Exit(_) => (3, Waits::NOTHING),
            };
            (number, pending.delay, waits)
        });
        Held {
            bars_seen: run.bars_seen,
            order,
            entry_bar: run.entry_bar,
            portfolio: &run.pf,
            extreme: run.extreme,
            last: run.last,
        }
    }

    /// The report, and what request 6 adds to the trade that finish closes, where it closes one.
    pub fn finish(mut self) -> (BacktestReport, During) {
        if self.reading == Reading::Paper {
            count_the_last_fee(&mut self.text);
        }
        (self.text.finish(), self.during)
    }
}

/// An entry that is due and reached: the sign of its side, its price before slippage, and whether it pays the maker fee.
#[derive(Clone, Copy)]
struct Due {
    dir: f64,
    raw_price: f64,
    maker: bool,
}

/// The entry that fills on a bar, by the requests' words.
fn entry_due(run: &StreamingBacktest, candle: &Candle) -> Option<Due> {
    let pending = run.pending.as_ref().filter(|pending| pending.delay == 0)?;
    let Action::Enter { side, trigger } = pending.action else {
        return None;
    };
    let (number, dir) = if matches!(side, Side::Long) { (0, 1.0) } else { (1, -1.0) };
    Some(Due {
        dir,
        raw_price: raw_price(number, Waits::of(trigger), candle)?,
        maker: matches!(trigger, Some((_, LevelKind::Limit))),
    })
}

/// The working order is filled; an entry that leaves the account flat is dropped.
fn fill_but_no_dust(run: &mut StreamingBacktest, bar: &Bar) -> Result<()> {
    let enters = run.pending.as_ref().is_some_and(|pending| matches!(pending.action, Action::Enter { .. }));
    if !enters {
        return run.fill_working_order(bar);
    }
    let (portfolio, entry_bar, extreme) = (run.pf.clone(), run.entry_bar, run.extreme);
    fill_stop_limit_by_request(run, bar)?;
    if !run.pf.in_position() {
        (run.pf, run.entry_bar, run.extreme) = (portfolio, entry_bar, extreme);
    }
    Ok(())
}

/// The working entry is filled. A stop-limit that is due fills by request 1's words: where they give a price, the text is asked for a market
/// entry on a bar that opens at it; of a bar an entry looks at the open, the time and the volume alone.
fn fill_stop_limit_by_request(run: &mut StreamingBacktest, bar: &Bar) -> Result<()> {
    let due = run.pending.as_ref().filter(|pending| pending.delay == 0).map(|pending| &pending.action);
    let Some(&Action::Enter { side, trigger: Some((stop, kind @ LevelKind::StopLimit { .. })) }) = due else {
        return run.fill_working_order(bar);
    };
    let Some(open) = fill_by_request(side, stop, kind, bar.candle) else {
        return Ok(());
    };
    let action = Action::Enter { side, trigger: None };
    run.pending = Some(Pending { action, delay: 0 });
    run.fill_working_order(&bar_of(&Candle { open, ..*bar.candle }, None, bar.index))
}

/// Where finish will close a position, the last equity point becomes the equity after closing (request 7).
fn count_the_last_fee(run: &mut StreamingBacktest) {
    let (Some((time, close)), Some(point)) = (run.last, run.equity.last_mut()) else {
        return;
    };
    if run.pf.in_position() {
        let mut closed = run.pf.clone();
        closed.exit(close, time, run.pf.qty.abs() * close * run.taker, "end");
        point.equity = closed.equity(close);
    }
}

/// What a run holds between two bars, besides its rows and lists.
pub struct Held<'a> {
    pub bars_seen: usize,
    /// The working order: 1 enter long, 2 enter short, 3 exit; its delay, and what it waits for then.
    pub order: Option<(u64, u32, Waits)>,
    pub entry_bar: Option<usize>,
    pub portfolio: &'a Portfolio,
    pub extreme: f64,
    pub last: Option<(i64, f64)>,
}

/// Rows the text keeps for a spec.
pub fn history_depth(spec: &StrategySpec) -> usize {
    super::history_depth(spec)
}
