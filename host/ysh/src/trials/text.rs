//! The runs as a table for people, and their totals.

use super::document::{Document, Parts};
use super::row::{Figures, Row};
use crate::columns::{columns, counted, grouped, Side};
use crate::run::outcome::reason_words;
use crate::show::rounded;

const HEADS: [(&str, Side); 12] = [
    ("file", Side::Left),
    ("over", Side::Left),
    ("bars", Side::Right),
    ("trades", Side::Right),
    ("won", Side::Right),
    ("lost", Side::Right),
    ("pnl", Side::Right),
    ("return %", Side::Right),
    ("Sharpe", Side::Right),
    ("drawdown %", Side::Right),
    ("worst %", Side::Right),
    ("", Side::Left),
];

pub fn text(document: &Document) -> String {
    let rows: Vec<Vec<String>> = document.runs.iter().map(row).collect();
    let mut lines = columns(&HEADS, &rows);
    lines.push(String::new());
    lines.extend(totals(document).into_iter().map(|(what, said)| format!("{what:<8} {said}")));
    lines.join("\n") + "\n"
}

fn row(row: &Row) -> Vec<String> {
    let mut cells = vec![row.file.clone(), row.bars_file.clone()];
    cells.extend(row.ran().map_or_else(|| vec!["-".to_owned(); HEADS.len() - 3], |ran| figures(ran).to_vec()));
    cells.push(note(row));
    cells
}

/// What a run came to, from its bars to its worst point.
pub fn figures(ran: &Figures) -> [String; 9] {
    let [bars, trades, won, lost] = [ran.bars, ran.trades, ran.totals.wins, ran.totals.losses].map(grouped);
    let [pnl, return_pct, sharpe, drawdown, worst] =
        [ran.pnl, ran.return_pct, ran.sharpe, ran.max_drawdown, ran.worst_pct].map(|x| rounded(x.0));
    [bars, trades, won, lost, pnl, return_pct, sharpe, drawdown, worst]
}

/// What was refused: bars of a run, or the run.
pub fn note(row: &Row) -> String {
    match (row.ran(), row.refused()) {
        (Some(ran), _) if ran.refused_bars > 0 => format!("{} refused", counted(ran.refused_bars, "bar", "bars")),
        (_, Some(refused)) => format!("not run: {}", refused.problem()),
        _ => String::new(),
    }
}

/// The lines of the totals: what each is, and what it says.
pub fn totals(document: &Document) -> Vec<(&'static str, String)> {
    let (totals, inputs) = (&document.totals, &document.inputs);
    let exact = &totals.exact;
    let mut runs = format!(
        "{} of {} over {}",
        counted(totals.runs, "run", "runs"),
        counted(inputs.strategies.len() as u64, "file", "files"),
        counted(inputs.bars.len() as u64, "file of bars", "files of bars")
    );
    if totals.refused_runs > 0 {
        runs.push_str(&format!("; {} refused, and in no total", grouped(totals.refused_runs)));
    }
    let mut lines = vec![("runs", runs)];
    lines.extend(parts(&document.parts).map(|said| ("parts", said)));
    let [trades, won, lost] = [totals.trades, exact.wins, exact.losses].map(grouped);
    lines.push(("trades", format!("{trades}: {won} won, {lost} lost")));
    let left = exact.left_by.counts().into_iter().filter(|(_, count)| *count > 0);
    let left: Vec<String> =
        left.map(|(reason, count)| format!("{} {}", reason_words(reason), grouped(count))).collect();
    if !left.is_empty() {
        lines.push(("left by", left.join(", ")));
    }
    lines.push(("pnl", format!("{}, the float that is nearest to the sum", crate::table::number(totals.pnl.0))));
    lines.push(("exactly", exact.exact_pnl.clone()));
    lines.push(("inputs", format!("SHA-256 {}", inputs.sha256)));
    lines
}

/// Which parts there are, where these are not all.
fn parts(parts: &Parts) -> Option<String> {
    let missing = parts.missing();
    let list = |parts: &[u64]| parts.iter().map(u64::to_string).collect::<Vec<_>>().join(", ");
    (!missing.is_empty()).then(|| format!("{} of {}; the others are not in here", list(&parts.done), parts.of))
}
