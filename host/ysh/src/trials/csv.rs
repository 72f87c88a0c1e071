//! The runs as CSV, a row each: every number as the shortest decimal that reads as it again.

use csv::Writer;

use super::document::Document;
use super::row::{Figures, Row};
use crate::table::number;

const HEADS: [&str; 14] = [
    "file",
    "bars_file",
    "bars",
    "trades",
    "wins",
    "losses",
    "pnl",
    "return_pct",
    "sharpe",
    "max_drawdown",
    "worst_pct",
    "refused_bars",
    "exact_pnl",
    "refused",
];

pub fn csv(document: &Document) -> Vec<u8> {
    let mut writer = Writer::from_writer(Vec::new());
    writer.write_record(HEADS).expect("a list of bytes takes everything");
    for row in &document.runs {
        writer.write_record(cells(row)).expect("a list of bytes takes everything");
    }
    writer.into_inner().expect("a list of bytes takes everything")
}

fn cells(row: &Row) -> Vec<String> {
    let mut cells = vec![row.file.clone(), row.bars_file.clone()];
    cells.extend(row.ran().map_or_else(|| vec![String::new(); HEADS.len() - 3], figures));
    cells.push(row.refused().map_or_else(String::new, |refused| refused.problem().to_string()));
    cells
}

fn figures(figures: &Figures) -> Vec<String> {
    let Figures { bars, trades, refused_bars, totals, .. } = figures;
    let mut cells = [*bars, *trades, totals.wins, totals.losses].map(|count| count.to_string()).to_vec();
    let floats = [figures.pnl, figures.return_pct, figures.sharpe, figures.max_drawdown, figures.worst_pct];
    cells.extend(floats.map(|x| number(x.0)));
    cells.extend([refused_bars.to_string(), totals.exact_pnl.clone()]);
    cells
}
