//! Two runs side by side as a page of its own: no network, no script.

use super::chart::Charts;
use super::text::{equity, more, trades, verdict, words};
use super::{Compared, Side};
use crate::page as skeleton;
use crate::svg::escape;

const STYLE: &str = concat!(include_str!("../chart.css"), include_str!("compare.css"));

/// As many words as the table has rows for.
const ROWS: usize = 5000;

pub fn page(compared: &Compared) -> String {
    let title = match compared.same() {
        true => "Two runs: nothing differs",
        false => "Two runs: they differ",
    };
    let chart = |title: &str, lead: &str, drawn: Option<String>| {
        drawn.map_or_else(String::new, |drawn| format!("<h2>{title}</h2>\n<p class=\"lead why\">{lead}</p>\n{drawn}"))
    };
    let lead = "At each bar's close: <span class=\"key a\">a</span> drawn through, <span class=\"key b\">b</span> broken. The upright line \
                is where they part.";
    let (curves, between) = Charts::of(compared).map_or((None, None), |charts| (Some(charts.curves), charts.between));
    let parts = [
        format!("<h1>{title}</h1>"),
        told(compared),
        chart("Equity of both", lead, curves),
        chart("What lies between", "The equity of b less that of a.", between),
        table(compared),
        footer(),
    ];
    skeleton::page(title, STYLE, &parts)
}

fn told(compared: &Compared) -> String {
    let [a, b] = compared.both(Side::told);
    let mut lines = vec![("a", a), ("b", b)];
    lines.extend(equity(compared).map(|said| ("equity", said)));
    lines.extend(trades(compared).map(|said| ("trades", said)));
    lines.extend(more(compared).into_iter().map(|said| ("more", said)));
    if compared.same() {
        lines.push(("", format!("{}: every equity and every word of every trade is the same", verdict(compared))));
    }
    let line = |(what, said): &(&str, String)| format!("<p><b>{what}</b> {}</p>\n", escape(said));
    format!("<div class=\"asked\">{}</div>", lines.iter().map(line).collect::<String>())
}

fn table(compared: &Compared) -> String {
    let all = words(compared);
    if all.is_empty() {
        return String::new();
    }
    let row = |cells: &Vec<String>| {
        let class = if cells[0].is_empty() { "" } else { " class=\"first\"" };
        let cells: String = cells.iter().map(|cell| format!("<td>{}</td>", escape(cell))).collect();
        format!("<tr{class}>{cells}</tr>\n")
    };
    let rows: String = all.iter().take(ROWS).map(row).collect();
    let rest = match all.len().saturating_sub(ROWS) {
        0 => String::new(),
        n => format!("<p>{n} words more differ; --json writes them all.</p>"),
    };
    format!(
        "<h2>Trades that differ</h2>\n<table class=\"words\"><thead><tr><th>trade</th><th>word</th><th>a</th><th>b</th></tr></thead>\
         <tbody>{rows}</tbody></table>{rest}"
    )
}

fn footer() -> String {
    format!(
        "<footer><p>What differs is the proved engine's to say: words are compared, not rounded numbers, and nothing that is equal is \
         told. Written by ysh {}.</p></footer>",
        env!("CARGO_PKG_VERSION")
    )
}
