//! A run as a page of its own, for a client to open: no network, and no script but its own.

use yshturpa::Trade;

use super::charts::{clock, marks, places, Charts};
use super::decisions::{of_entry, of_exit, Decision};
use super::histogram::histogram;
use super::outcome::{of, reason_words, Outcome};
use super::study::{Side, Study};
use super::text;
use crate::columns::counted;
use crate::page as skeleton;
use crate::show::{rounded, Clock};
use crate::svg::escape;

const STYLE: &str = concat!(include_str!("../chart.css"), include_str!("report.css"));

/// As many trades as the table has rows for: the first half and the last half of these.
const ROWS: usize = 2000;

const SCRIPT: &str = include_str!("pointer.js");

/// The page of a run, and of the orders that it made where these are known.
pub fn page(outcome: &Outcome, decisions: &[Decision]) -> String {
    let study = Study::of(outcome);
    let title = if outcome.title.is_empty() { &outcome.file } else { &outcome.title };
    let drawn = Charts::of(outcome);
    let chart = |title: &str, lead: &str, which: fn(&Charts) -> &String| {
        let one = |charts| {
            format!(
                "<h2>{title}</h2>\n<p class=\"lead why\">{}</p>\n<div class=\"chart\">{}</div>",
                escape(lead),
                which(charts)
            )
        };
        drawn.as_ref().map(one).unwrap_or_default()
    };
    let parts = [
        format!("<h1>Run of {}</h1>", escape(title)),
        told(outcome),
        refused(outcome),
        figures(outcome),
        used(outcome),
        chart("Closes, entries and exits", &marks(outcome), |charts| &charts.closes),
        chart(
            "Equity",
            "At each bar's close; the broken line is the capital, the thin one the capital bought at the first close and held, without costs.",
            |charts| &charts.equity,
        ),
        chart("Drawdown", "Percent under the highest equity so far.", |charts| &charts.drawdown),
        told_more(outcome, &study),
        months(&study),
        returns(outcome),
        trades(outcome, decisions),
        decided(outcome, decisions),
        notes(outcome),
        footer(),
        drawn.as_ref().map_or(String::new(), |charts| skeleton::script_over("points", &charts.points, SCRIPT)),
    ];
    skeleton::page(title, STYLE, &parts)
}

fn told(outcome: &Outcome) -> String {
    let lines = [
        ("rules", outcome.file.clone()),
        ("bars", text::bars(outcome)),
        ("capital", rounded(outcome.capital)),
        ("trades", text::trades(outcome)),
        ("fees", format!("{}; funding {}", rounded(outcome.fees), rounded(outcome.tally.funding))),
    ];
    let line = |(what, said): &(&str, String)| format!("<p><b>{what}</b> {}</p>\n", escape(said));
    format!("<div class=\"asked\">{}</div>", lines.iter().map(line).collect::<String>())
}

/// The bars that are in none of these figures.
fn refused(outcome: &Outcome) -> String {
    const TOLD: usize = 50;
    let refusals = &outcome.refusals;
    if refusals.count == 0 {
        return String::new();
    }
    let lines = refusals.told.iter().take(TOLD).map(|problem| format!("<li>{}</li>", escape(&problem.to_string())));
    let more = match refusals.count.saturating_sub(TOLD as u64) {
        0 => String::new(),
        n => format!("<li>and {}</li>", counted(n, "bar more", "bars more")),
    };
    let count = counted(refusals.count, "bar was", "bars were");
    format!(
        "<div class=\"bad\"><b>{count} refused</b>, and left out:<ul>{}{more}</ul></div>",
        lines.collect::<String>()
    )
}

fn figures(outcome: &Outcome) -> String {
    let figure = |class: &str, big: &str, small: &str, of: &str| {
        let of = if of.is_empty() { String::new() } else { format!("<small>{}</small>", escape(of)) };
        format!("<div class=\"figure{class}\"><b>{}</b><span>{}</span>{of}</div>", escape(big), escape(small))
    };
    let class = |name: &str, x: f64| match name {
        "pnl" | "return_pct" if x > 0.0 => " good",
        "pnl" | "return_pct" if x < 0.0 => " over",
        _ => "",
    };
    let mut all = vec![figure("", &rounded(outcome.last_equity()), "equity at the end", "")];
    for (name, words, unit, x) in outcome.nine() {
        let unit = if unit.is_empty() { String::new() } else { format!(" {unit}") };
        all.push(figure(class(name, x), &format!("{}{unit}", rounded(x)), words, of(name)));
    }
    format!("<div class=\"figures\">{}</div>", all.concat())
}

/// The rules, sizing and costs that the run used.
fn used(outcome: &Outcome) -> String {
    let row = |(what, said): &(&str, String)| format!("<tr><td>{what}</td><td>{}</td></tr>\n", escape(said));
    format!(
        "<h2>What ran</h2>\n<table class=\"used\"><tbody>{}</tbody></table>",
        outcome.used.iter().map(row).collect::<String>()
    )
}

/// What the nine metrics do not say.
fn told_more(outcome: &Outcome, study: &Study) -> String {
    let percent = |x: Option<f64>| x.map_or("—".to_owned(), |x| format!("{}%", rounded(x)));
    let clock = clock(outcome);
    let drawdown = study.drawdown.map_or("never under its highest".to_owned(), |found| {
        let until = if found.open { ", still under at the end" } else { "" };
        let (first, last) = (clock.text(found.first), clock.text(found.last));
        format!("{} in a row, {first} to {last}{until}", counted(found.bars as u64, "bar", "bars"))
    });
    let [won, lost] = study.sides[0].streaks.map(|n| counted(n as u64, "trade", "trades"));
    let lines = [
        ("buy and hold", format!("{}, from the first close to the last, without costs", percent(study.hold))),
        ("exposure", format!("{} of the bars had a position", percent(study.exposure))),
        ("longest drawdown", drawdown),
        ("streaks", format!("{won} won in a row, {lost} lost in a row, at most")),
    ];
    let line = |(what, said): &(&str, String)| format!("<tr><td>{what}</td><td>{}</td></tr>\n", escape(said));
    let heads = ["", "trades", "won", "lost", "pnl", "average win", "average loss", "best", "worst"];
    let head: String = heads.iter().map(|head| format!("<th>{head}</th>")).collect();
    let sides: String = study.sides.iter().filter(|side| side.trades > 0).map(side).collect();
    let table = match sides.is_empty() {
        true => String::new(),
        false => format!("<table class=\"trades\"><thead><tr>{head}</tr></thead><tbody>{sides}</tbody></table>"),
    };
    format!(
        "<h2>Beside the metrics</h2>\n<p class=\"lead why\">Worked out by ysh from trades, equity and closes.</p>\n\
         <table class=\"used\"><tbody>{}</tbody></table>\n{table}",
        lines.iter().map(line).collect::<String>()
    )
}

fn side(side: &Side) -> String {
    let maybe = |x: Option<f64>| x.map_or("—".to_owned(), rounded);
    let cells = [
        side.name.to_owned(),
        side.trades.to_string(),
        side.won.to_string(),
        side.lost.to_string(),
        rounded(side.pnl),
        maybe(side.average_win),
        maybe(side.average_loss),
        maybe(side.best),
        maybe(side.worst),
    ];
    format!("<tr>{}</tr>\n", cells.iter().map(|cell| format!("<td>{}</td>", escape(cell))).collect::<String>())
}

/// The months, where there are several.
fn months(study: &Study) -> String {
    if study.months.is_empty() {
        return String::new();
    }
    let month = |month: &super::study::Month| {
        let class = if month.change < 0.0 { " class=\"fell\"" } else { "" };
        format!("<span{class}><i>{}</i><b>{}</b></span>\n", escape(&month.name), escape(&percent(month.change)))
    };
    let lead = "What the equity at the end of each is over that at the end of the one before, or over the capital.";
    let all: String = study.months.iter().map(month).collect();
    format!("<h2>Months</h2>\n<p class=\"lead why\">{lead}</p>\n<div class=\"months\">{all}</div>")
}

/// How often the trades had which return.
fn returns(outcome: &Outcome) -> String {
    let drawn = histogram(&outcome.trades);
    drawn.map_or(String::new(), |svg| {
        format!("<h2>Returns of the trades</h2>\n<p class=\"lead why\">How many trades had which return.</p>\n{svg}")
    })
}

/// The decisions to enter and to leave of each trade that has a row, by its number.
fn of_trades<'a>(
    outcome: &'a Outcome,
    decisions: &'a [Decision],
) -> impl Iterator<Item = (usize, [Option<&'a Decision>; 2])> + 'a {
    let (mut since, count) = (0, outcome.trades.len());
    let one = move |(number, [entry, exit]): (usize, [usize; 2])| {
        let before = std::mem::replace(&mut since, exit);
        let found = || [of_entry(decisions, before, entry), of_exit(decisions, entry, exit)];
        has_row(number, count).then(|| (number, found()))
    };
    places(outcome).enumerate().filter_map(one)
}

fn has_row(number: usize, count: usize) -> bool {
    count <= ROWS || number < ROWS / 2 || number >= count - ROWS / 2
}

/// Why each trade was entered and left: the chains that the table's times lead to.
fn decided(outcome: &Outcome, decisions: &[Decision]) -> String {
    let clock = clock(outcome);
    let mut all = String::new();
    for (number, found) in of_trades(outcome, decisions) {
        for ((decision, letter), what) in found.into_iter().zip(["e", "x"]).zip(["entered", "left"]) {
            let Some(decision) = decision else { continue };
            let line = |(level, text): &(usize, String)| {
                format!("<p style=\"margin-left:{}em\">{}</p>", level + 1, escape(text))
            };
            all.push_str(&format!(
                "<div class=\"decided\" id=\"{letter}{}\"><b>trade {} was {what}</b>: decided at bar {}, {}{}</div>\n",
                number + 1,
                number + 1,
                decision.bar,
                clock.text(decision.time),
                decision.lines.iter().map(line).collect::<String>()
            ));
        }
    }
    match all.is_empty() {
        true => all,
        false => format!("<h2>Why each trade was entered and left</h2>\n{all}"),
    }
}

fn trades(outcome: &Outcome, decisions: &[Decision]) -> String {
    if outcome.trades.is_empty() {
        return "<h2>Trades</h2>\n<p>There was no trade.</p>".to_owned();
    }
    let clock = clock(outcome);
    let unit = clock.unit();
    let (entered, left) = (format!("entered{unit}"), format!("left{unit}"));
    let heads = [
        "",
        "side",
        &entered,
        &left,
        "entry",
        "exit",
        "quantity",
        "pnl",
        "return",
        "left by",
        "funding",
        "worst price",
        "against",
    ];
    let head: String = heads.iter().map(|head| format!("<th>{head}</th>")).collect();
    let count = outcome.trades.len();
    let mut rows = String::new();
    for (number, why) in of_trades(outcome, decisions) {
        if count > ROWS && number == count - ROWS / 2 {
            let between = count - ROWS;
            rows.push_str(&format!("<tr><td colspan=\"13\">{between} trades between are in no row here</td></tr>\n"));
        }
        if let Some(trade) = outcome.trades.get(number) {
            rows.push_str(&row(number, &trade, clock, why.map(|decision| decision.is_some())));
        }
    }
    let lead = "A time leads to why the trade was entered or left then. Worst price: the least favourable from the entry bar to the closing bar, and how far against the entry that is. \
                Funding is not part of the pnl; below 0 it was received.";
    format!(
        "<h2>Trades</h2>\n<p class=\"lead why\">{lead}</p>\n\
         <table class=\"trades\"><thead><tr>{head}</tr></thead><tbody>{rows}</tbody></table>"
    )
}

/// A trade; its times lead to why it was entered and left, where that is told.
fn row(number: usize, trade: &Trade, clock: Clock, why: [bool; 2]) -> String {
    let long = trade.qty > 0.0;
    let against = (trade.worst - trade.entry_price) / trade.entry_price * 100.0;
    let against = if long { -against } else { against };
    let cells = [
        (number + 1).to_string(),
        if long { "long" } else { "short" }.to_owned(),
        clock.text(trade.entry_time),
        clock.text(trade.exit_time),
        rounded(trade.entry_price),
        rounded(trade.exit_price),
        rounded(trade.qty.abs()),
        rounded(trade.pnl),
        percent(trade.return_pct),
        reason_words(trade.reason),
        rounded(trade.funding),
        rounded(trade.worst),
        percent(against),
    ];
    let class = if trade.pnl < 0.0 { " class=\"loss\"" } else { "" };
    let cell = |(place, cell): (usize, &String)| match (place, why) {
        (2, [true, _]) => format!("<td><a href=\"#e{}\">{}</a></td>", number + 1, escape(cell)),
        (3, [_, true]) => format!("<td><a href=\"#x{}\">{}</a></td>", number + 1, escape(cell)),
        _ => format!("<td>{}</td>", escape(cell)),
    };
    let cells: String = cells.iter().enumerate().map(cell).collect();
    format!("<tr{class}>{cells}</tr>\n")
}

/// A percentage of two places, or of as many digits as it needs to be seen.
fn percent(x: f64) -> String {
    match (0.01..1e6).contains(&x.abs()) {
        true => format!("{x:.2}%"),
        false => format!("{}%", rounded(x)),
    }
}

fn notes(outcome: &Outcome) -> String {
    let mut notes = [&outcome.doubts[..], &outcome.odd, &outcome.notes].concat();
    if !outcome.unread.is_empty() {
        notes.push(format!("columns that nothing reads: {}", outcome.unread.join(", ")));
    }
    let list: String = notes.iter().map(|note| format!("<li>{}</li>", escape(note))).collect();
    match list.is_empty() {
        true => list,
        false => format!("<h2>Notes</h2>\n<ul>{list}</ul>"),
    }
}

fn footer() -> String {
    format!(
        "<footer><p>Rules, fills, trades, equity and metrics are those of the proved engine; numbers here are rounded. \
         The exact ones are written by --trades, --equity and --json. Past bars say nothing about later ones. Written by ysh {}.</p></footer>",
        env!("CARGO_PKG_VERSION")
    )
}
