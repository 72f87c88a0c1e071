//! `ysh run` over files, and what it wrote.

use std::ffi::OsString;

use json::Value;

/// A run as its files tell it: floats as their words, times as numbers.
pub struct Told {
    pub metrics: Vec<f64>,
    pub num_trades: u64,
    pub trades: Vec<TradeRow>,
    pub equity: Vec<(i64, f64)>,
}

pub struct TradeRow {
    pub times: [i64; 2],
    pub floats: [f64; 5],
    pub reason: String,
    pub during: [f64; 2],
}

/// The metrics in the order of their words.
const METRICS: [&str; 8] = [
    "pnl",
    "return_pct",
    "sharpe",
    "sortino",
    "calmar",
    "max_drawdown",
    "win_rate",
    "profit_factor",
];

pub fn ysh(arguments: &[&str]) -> (u8, String, String) {
    let (mut out, mut err) = (Vec::new(), Vec::new());
    let all = std::iter::once("ysh")
        .chain(arguments.iter().copied())
        .map(OsString::from);
    let status = ysh::run(all, &mut out, &mut err);
    (
        status,
        String::from_utf8(out).expect("text"),
        String::from_utf8(err).expect("text"),
    )
}

pub fn run(arguments: &[&str], folder: &str) -> Result<Told, String> {
    let (trades, equity) = (format!("{folder}/trades.csv"), format!("{folder}/equity.csv"));
    let wanted = [
        "--on-refusal",
        "skip",
        "--json",
        "--trades",
        &trades,
        "--equity",
        &equity,
    ];
    let (status, out, said) = ysh(&[&["run"], arguments, &wanted].concat());
    if status > 1 || out.is_empty() {
        return Err(format!("status {status}: {said}"));
    }
    let document: Value = json::from_str(&out).map_err(|error| error.to_string())?;
    let told = Told {
        metrics: METRICS.iter().map(|name| float(&document["metrics"][name])).collect(),
        num_trades: document["metrics"]["num_trades"]
            .as_u64()
            .ok_or("no number of trades")?,
        trades: rows(&trades)?.iter().map(trade).collect(),
        equity: rows(&equity)?
            .iter()
            .map(|row| (row[0].parse().unwrap(), row[1].parse().unwrap()))
            .collect(),
    };
    same_in_json(&document, &told)?;
    Ok(told)
}

/// A number of the document; one that is not finite is a text.
fn float(value: &Value) -> f64 {
    value
        .as_f64()
        .or_else(|| value.as_str()?.parse().ok())
        .unwrap_or_else(|| panic!("{value} is no number"))
}

fn rows(path: &str) -> Result<Vec<csv::StringRecord>, String> {
    let mut reader = csv::Reader::from_path(path).map_err(|error| error.to_string())?;
    reader
        .records()
        .collect::<Result<_, _>>()
        .map_err(|error| error.to_string())
}

fn trade(row: &csv::StringRecord) -> TradeRow {
    let x = |k: usize| row[k].parse::<f64>().expect("a float");
    TradeRow {
        times: [0, 1].map(|k| row[k].parse().expect("a time")),
        floats: [2, 3, 4, 5, 6].map(x),
        reason: row[7].to_owned(),
        during: [8, 9].map(x),
    }
}

/// The document has the same trades and the same equity as the files.
fn same_in_json(document: &Value, told: &Told) -> Result<(), String> {
    let equity = document["equity"].as_array().ok_or("no equity")?;
    let points = equity.iter().map(|pair| (pair[0].as_i64(), float(&pair[1]).to_bits()));
    if !points.eq(told.equity.iter().map(|(time, x)| (Some(*time), x.to_bits()))) {
        return Err("the document's equity is not the file's".to_owned());
    }
    let trades = document["trades"].as_array().ok_or("no trades")?;
    let same = |(one, row): (&Value, &TradeRow)| {
        float(&one["pnl"]).to_bits() == row.floats[3].to_bits() && one["reason"] == row.reason[..]
    };
    match trades.len() == told.trades.len() && trades.iter().zip(&told.trades).all(same) {
        true => Ok(()),
        false => Err("the document's trades are not the file's".to_owned()),
    }
}
