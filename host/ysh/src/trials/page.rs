//! The runs as a page of its own: no network, and a few lines of script that sort the table.

use super::chart::{scatter, small};
use super::document::Document;
use super::row::{Figures, Row};
use super::text::{figures, note, totals};
use crate::columns::{counted, grouped};
use crate::page as skeleton;
use crate::run::json::Exact;
use crate::show::rounded;
use crate::svg::escape;
use crate::table::number;

const STYLE: &str = concat!(include_str!("../chart.css"), include_str!("trials.css"));
const SORT: &str = include_str!("sort.js");

pub fn page(document: &Document) -> String {
    let title = format!("Trials: {}", counted(document.totals.runs, "run", "runs"));
    let line = |(what, said): (&str, String)| format!("<p><b>{what}</b> {}</p>\n", escape(&said));
    let asked: String = totals(document).into_iter().map(line).collect();
    let drawn = scatter(&document.runs).map_or_else(String::new, |drawn| {
        let lead = "A point a run: its return upwards, its greatest drawdown to the right, both in percent. The pointer tells which.";
        format!("<h2>Return against drawdown</h2>\n<p class=\"lead why\">{lead}</p>\n{drawn}")
    });
    let parts = [
        format!("<h1>{title}</h1>"),
        format!("<div class=\"asked\">{asked}</div>"),
        big(document),
        drawn,
        table(document),
        doubts(document),
        footer(),
        skeleton::script(SORT),
    ];
    skeleton::page(&title, STYLE, &parts)
}

fn big(document: &Document) -> String {
    let totals = &document.totals;
    let figure = |class: &str, big: &str, small: &str| {
        format!("<div class=\"figure{class}\"><b>{}</b><span>{small}</span></div>", escape(big))
    };
    let class = match totals.pnl.0 {
        pnl if pnl > 0.0 => " good",
        pnl if pnl < 0.0 => " over",
        _ => "",
    };
    let all = [
        figure(class, &rounded(totals.pnl.0), "pnl of all trades"),
        figure("", &grouped(totals.trades), "trades"),
        figure("", &grouped(totals.exact.wins), "won"),
        figure("", &grouped(totals.exact.losses), "lost"),
        figure(if totals.refused_runs > 0 { " over" } else { "" }, &grouped(totals.refused_runs), "runs refused"),
    ];
    format!("<div class=\"figures\">{}</div>", all.concat())
}

/// The heads, and whether a click sorts by the column.
const HEADS: [(&str, bool); 13] = [
    ("file", true),
    ("over", true),
    ("equity", false),
    ("bars", true),
    ("trades", true),
    ("won", true),
    ("lost", true),
    ("pnl", true),
    ("return %", true),
    ("Sharpe", true),
    ("drawdown %", true),
    ("worst %", true),
    ("refused", true),
];

fn table(document: &Document) -> String {
    let head = |(name, sorts): &(&str, bool)| match sorts {
        true => format!("<th><button type=\"button\">{name}</button></th>"),
        false => format!("<th>{name}</th>"),
    };
    let heads: String = HEADS.iter().map(head).collect();
    let rows: String = document.runs.iter().map(row).collect();
    let lead = "A click on a head sorts by it, another turns the order. Sharpe is per bar, not annualised. Worst: how far a price went \
                against the entry of a trade, at most.";
    format!(
        "<h2>Runs</h2>\n<p class=\"lead why\">{lead}</p>\n\
         <table class=\"runs\"><thead><tr>{heads}</tr></thead><tbody>{rows}</tbody></table>"
    )
}

fn row(row: &Row) -> String {
    let name = |text: &str| format!("<td class=\"left\" data-by=\"{0}\">{0}</td>", escape(text));
    let names = name(&row.file) + &name(&row.bars_file);
    match row.ran() {
        None => format!(
            "<tr class=\"no\">{names}<td></td><td class=\"left\" colspan=\"10\" data-by=\"\">{}</td></tr>\n",
            escape(&note(row))
        ),
        Some(ran) => {
            let texts = figures(ran);
            let cells = exact(ran).into_iter().zip(&texts).map(|(by, text)| cell(&by, text));
            let refused = cell(&ran.refused_bars.to_string(), &escape(&note(row)));
            let class = if ran.pnl.0 < 0.0 { " class=\"loss\"" } else { "" };
            let curve = small(&ran.curve);
            format!("<tr{class}>{names}<td class=\"curve\">{curve}</td>{}{refused}</tr>\n", cells.collect::<String>())
        }
    }
}

fn cell(by: &str, text: &str) -> String {
    format!("<td data-by=\"{by}\">{text}</td>")
}

/// What the columns are sorted by, as `figures` has them.
fn exact(ran: &Figures) -> [String; 9] {
    let [bars, trades, won, lost] = [ran.bars, ran.trades, ran.totals.wins, ran.totals.losses].map(|n| n.to_string());
    let [pnl, return_pct, sharpe, drawdown, worst] =
        [ran.pnl, ran.return_pct, ran.sharpe, ran.max_drawdown, ran.worst_pct]
            .map(|Exact(x)| number(x).replace("inf", "Infinity"));
    [bars, trades, won, lost, pnl, return_pct, sharpe, drawdown, worst]
}

/// What may make the answer another than was meant.
fn doubts(document: &Document) -> String {
    let list: String = document.doubts().iter().map(|doubt| format!("<li>{}</li>", escape(doubt))).collect();
    match list.is_empty() {
        true => list,
        false => format!("<h2>Doubts</h2>\n<ul>{list}</ul>"),
    }
}

fn footer() -> String {
    format!(
        "<footer><p>Rules, fills, trades, equity, metrics and totals are those of the proved engine. The sum of all pnl is exact; the other \
         numbers here are rounded, and --csv and --json write the exact ones. Past bars say nothing about later ones. Written by ysh {}.</p></footer>",
        env!("CARGO_PKG_VERSION")
    )
}
