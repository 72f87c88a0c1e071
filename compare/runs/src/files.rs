//! A run as files: the table, the settings beside it, the strategy that is shown for it, and the bars.

use std::fs;
use std::path::Path;

use json::{json, Value};
use oracle::lists::dice::Dice;
use oracle::spec::{OrderType, Sizing, Slippage};
use oracle::Settings;

use crate::case::Case;

pub struct Written {
    pub folder: String,
    pub table: String,
    pub bars: String,
    pub absent_short_exit: bool,
}

/// Slots of every sort of name: plain ones, one that a price has, ones that CSV has to quote.
fn names(slots: usize, dice: &mut Dice) -> Vec<String> {
    let odd = ["close", "a b", "x,y", "say \"x\"", "rate", "é.upper", "time"];
    let mut names: Vec<String> = (0..slots).map(|k| format!("slot{k:02}")).collect();
    for (k, name) in odd.into_iter().enumerate().filter(|(k, _)| *k < slots) {
        if dice.percent(20) {
            names[k] = name.to_owned();
        }
    }
    names
}

impl Written {
    pub fn new(case: &Case, folder: &Path, dice: &mut Dice) -> Written {
        let at = |name: &str| {
            folder
                .join(name)
                .to_str()
                .expect("a folder of plain letters")
                .to_owned()
        };
        let names = names(case.table.slots, dice);
        let (table, bars) = (at("t.rtb"), at("b.csv"));
        fs::write(&table, case.table.bytes()).expect("the table is written");
        fs::write(
            format!("{table}.settings.json"),
            settings(&case.settings, &names).to_string(),
        )
        .expect("settings too");
        fs::write(&bars, csv(case, &names, dice)).expect("the bars are written");
        let [_, _, short_entry, short_exit] = &case.table.trees;
        let absent_short_exit = short_entry.is_some() && short_exit.is_none();
        Written {
            folder: at(""),
            table,
            bars,
            absent_short_exit,
        }
    }

    /// The strategy that `ysh show --json` writes for the table; none where the original's `validate` would not take it.
    pub fn strategy(&self) -> Result<Option<String>, String> {
        let (status, text, said) = crate::ours::ysh(&["show", "--json", &self.table]);
        if status != 0 {
            return Err(format!("show: {said}"));
        }
        let path = format!("{}/s.json", self.folder);
        fs::write(&path, text).map_err(|error| error.to_string())?;
        Ok((crate::ours::ysh(&["depth", &path]).0 == 0).then_some(path))
    }
}

fn settings(s: &Settings, names: &[String]) -> Value {
    let sizing = match s.sizing {
        Sizing::FixedFraction { fraction } => json!({"type": "fixed_fraction", "fraction": fraction}),
        Sizing::FixedQty { qty } => json!({"type": "fixed_qty", "qty": qty}),
        Sizing::FixedCash { cash } => json!({"type": "fixed_cash", "cash": cash}),
        Sizing::VolTarget { target_vol, lookback } => {
            json!({"type": "vol_target", "target_vol": target_vol, "lookback": lookback})
        }
        Sizing::RiskPerTrade { risk_pct } => json!({"type": "risk_per_trade", "risk_pct": risk_pct}),
    };
    let slippage = match s.slippage {
        Slippage::FixedBps { bps } => json!({"type": "fixed_bps", "bps": bps}),
        Slippage::VolumeImpact { coef } => json!({"type": "volume_impact", "coef": coef}),
        Slippage::Spread => panic!("order books are outside the port"),
    };
    let order = match s.order_type {
        OrderType::Market => json!({"type": "market"}),
        OrderType::Limit => json!({"type": "limit", "level_pct": s.level_pct}),
        OrderType::Stop => json!({"type": "stop", "level_pct": s.level_pct}),
        OrderType::StopLimit => json!({"type": "stop_limit", "stop_pct": s.level_pct, "limit_pct": s.limit_pct}),
    };
    json!({
        "slots": names, "depth": s.depth, "capital": s.capital, "warmup": s.warmup, "delay": s.delay, "sizing": sizing,
        "taker_bps": s.taker_bps, "slippage": slippage, "funding": s.funding, "stop_loss_pct": s.risk.stop_loss_pct,
        "trailing_stop_pct": s.risk.trailing_stop_pct, "take_profit_pct": s.risk.take_profit_pct,
        "max_leverage": s.risk.max_leverage, "max_position_pct": s.risk.max_position_pct,
        "liquidation": s.risk.liquidation, "partial_fills": s.partial_fills, "max_participation": s.participation,
        "entry_order": order, "maker_bps": s.maker_bps, "lot": s.lot,
    })
}

/// A float in one of the forms that read as it again.
fn number(x: f64, dice: &mut Dice) -> String {
    match dice.below(4) {
        0 => format!("{x:e}"),
        1 => format!(" {x:?} "),
        2 if x.abs() < 1e18 && x.abs() > 1e-12 => format!("{x}"),
        _ => format!("{x:?}"),
    }
}

/// The bars, their columns in any order, with a column that nothing reads now and then.
fn csv(case: &Case, names: &[String], dice: &mut Dice) -> Vec<u8> {
    const FIXED: [&str; 8] = ["time", "open", "high", "low", "close", "volume", "mark", "rate"];
    let funded = case.bars.iter().any(|bar| bar.funding.is_some()) || dice.percent(30);
    let mut heads: Vec<String> = FIXED[..if funded { 8 } else { 6 }]
        .iter()
        .map(|name| (*name).to_owned())
        .collect();
    let slot = |name: &String| {
        if FIXED.contains(&&name[..]) {
            format!("slot:{name}")
        } else {
            name.clone()
        }
    };
    heads.extend(names.iter().map(slot));
    heads.extend(dice.percent(20).then(|| "comment".to_owned()));
    let mut order: Vec<usize> = (0..heads.len()).collect();
    if dice.percent(50) {
        (1..order.len())
            .rev()
            .for_each(|k| order.swap(k, dice.below(k as u64 + 1) as usize));
    }
    let end = if dice.percent(30) {
        csv::Terminator::CRLF
    } else {
        csv::Terminator::Any(b'\n')
    };
    let mut writer = csv::WriterBuilder::new().terminator(end).from_writer(Vec::new());
    let mut put = |cells: Vec<String>| {
        writer
            .write_record(order.iter().map(|k| &cells[*k]))
            .expect("a list takes all")
    };
    let count = heads.len();
    put(heads);
    for bar in &case.bars {
        let c = &bar.candle;
        let mut cells = vec![c.time.to_string()];
        cells.extend([c.open, c.high, c.low, c.close, c.volume].map(|x| number(x, dice)));
        if funded {
            let none = [String::new(), String::new()];
            cells.extend(
                bar.funding
                    .map_or(none, |(mark, rate)| [number(mark, dice), number(rate, dice)]),
            );
        }
        cells.extend(
            bar.slots
                .iter()
                .map(|slot| slot.map_or(String::new(), |x| number(x, dice))),
        );
        cells.resize(count, "as it came".to_owned());
        put(cells);
    }
    writer.into_inner().expect("a list takes all")
}
