//! The answer as a page of its own, to be printed and signed.

use super::against::{Against, Change};
use super::chart::chart;
use super::formulas::{self, Formula};
use super::given::Given;
use super::limits::limits;
use super::plan::Flash;
use super::report::{Client, Report};
use super::sheet::{LIBRARY, VERSION};
use super::text::{change_said, limits_said, needs};
use super::told::{asked, capacitance, room, verdict, ASSUMED};
use super::units::Time;
use crate::columns::{counted, grouped};
use crate::page as skeleton;
use crate::svg::{escape, Svg};

const STYLE: &str = include_str!("../chart.css");

pub fn page(report: &Report) -> String {
    let parts = [
        "<h1>How long a box needs power after the supply drops</h1>".to_owned(),
        figures(report),
        doubts(report),
        missing(report),
        told(&report.given),
        section("Each box", &boxes(report)),
        section("Each client, alone in its box, against the limit", &chart(report).map_or(String::new(), Svg::done)),
        section("Each client", &table(report)),
        alone(report),
        report.against.as_ref().map_or(String::new(), |against| changes(report, against)),
        limited(report),
        reckoned(report),
        notes(report),
        section("What this stands on", &list(ASSUMED.iter().map(|line| (*line).to_owned()))),
        section("What was read", &identity(report)),
        SIGNATURE.to_owned(),
    ];
    skeleton::page("Hold-up time", STYLE, &parts)
}

fn section(title: &str, body: &str) -> String {
    match body.is_empty() {
        true => String::new(),
        false => format!("<h2>{title}</h2>\n{body}"),
    }
}

fn list(lines: impl Iterator<Item = String>) -> String {
    let items: String = lines.map(|line| format!("<li>{}</li>", escape(&line))).collect();
    if items.is_empty() {
        items
    } else {
        format!("<ul>{items}</ul>")
    }
}

fn told(given: &Given) -> String {
    let line = |(what, said): &(&str, String)| format!("<p><b>{what}</b> {}</p>\n", escape(said));
    format!("<div class=\"asked\">{}</div>", asked(given).iter().map(line).collect::<String>())
}

/// The figures to be remembered: the verdict first, then what the longest box and the worst client need.
fn figures(report: &Report) -> String {
    let (Some(worst), Some(longest)) = (report.worst(), report.worst_box()) else {
        return "<p><b>No file was answered.</b></p>".to_owned();
    };
    let figure = |class: &str, big: &str, small: &str| {
        format!("<div class=\"figure{class}\"><b>{}</b><span>{}</span></div>", escape(big), escape(small))
    };
    let said = verdict(report);
    let (big, small) = said.split_once([';', ':']).unwrap_or((&said, ""));
    let class = match (report.given.have, report.short_boxes().is_empty(), report.problems.is_empty()) {
        (None, _, _) => "",
        (Some(_), true, true) => " good",
        (Some(_), _, _) => " over",
    };
    let mut all = vec![figure(&format!("{class} first"), big.trim(), small.trim())];
    if let Some(said) = capacitance(&report.given, longest.total) {
        let (big, small) = said.split_once(" (").unwrap_or((&said, ""));
        let small = format!("capacitance for the longest box; {}", small.trim_end_matches(')'));
        all.push(figure("", big, &small));
    }
    if report.clients.len() > 1 {
        let alone = format!("the worst client, alone in its box: {}", worst.file);
        all.push(figure("", &format!("{} ms", worst.alone.up()), &alone));
    }
    if let Some(typical) = longest.typical {
        all.push(figure("", &format!("{} ms", typical.up()), "the longest box, typically; the longest times decide"));
    }
    let why = format!("<p class=\"why\">What makes the worst client so: {}.</p>", escape(&worst.why));
    format!("<div class=\"figures\">{}</div>\n{why}", all.concat())
}

/// What may make the answer another than was meant.
fn doubts(report: &Report) -> String {
    let doubts = report.clients.iter().flat_map(|c| c.doubts.iter().map(move |doubt| format!("{}: {doubt}", c.file)));
    let list = list(doubts);
    match list.is_empty() {
        true => list,
        false => format!("<div class=\"bad\"><b>To be looked at before this is signed</b>{list}</div>"),
    }
}

fn missing(report: &Report) -> String {
    if report.problems.is_empty() {
        return String::new();
    }
    let lines = list(report.problems.iter().map(ToString::to_string));
    let count = counted(report.problems.len() as u64, "file was", "files were");
    format!("<div class=\"bad\"><b>{count} not answered</b>, and in none of these figures:{lines}</div>")
}

/// A table: heads, and rows of cells that are marked up already.
fn table_of(heads: &[&str], rows: impl Iterator<Item = String>) -> String {
    let head: String = heads.iter().map(|head| format!("<th>{head}</th>")).collect();
    format!("<table><thead><tr>{head}</tr></thead><tbody>{}</tbody></table>", rows.collect::<String>())
}

fn plain(text: &str) -> String {
    format!("<td>{}</td>", escape(text))
}

fn boxes(report: &Report) -> String {
    if !report.named() {
        return String::new();
    }
    let pages = matches!(report.given.plan.flash, Flash::Pages { .. });
    let mut heads = vec!["box", "dumps"];
    heads.extend(pages.then_some("programs"));
    heads.extend(["time, ms", ""]);
    let rows = report.boxes.iter().map(|one| {
        let mut cells = vec![plain(&one.name), plain(&grouped(one.dumps()))];
        cells.extend(one.programs.map(|n| plain(&grouped(n))));
        cells.push(plain(&one.total.up()));
        let said = report.given.have.map_or(String::new(), |have| one.verdict(have).to_string());
        let class = if said.starts_with("fits") || said.is_empty() { "" } else { " class=\"no\"" };
        cells.push(format!("<td{class}>{said}</td>"));
        format!("<tr>{}</tr>\n", cells.concat())
    });
    table_of(&heads, rows)
}

fn table(report: &Report) -> String {
    if report.clients.is_empty() {
        return String::new();
    }
    let pages = matches!(report.given.plan.flash, Flash::Pages { .. });
    let mut heads = vec!["file", "D", "K", "window, bytes", "dump, bytes"];
    heads.extend(pages.then_some("programs"));
    heads.extend(["writing, ms", "alone, ms"]);
    heads.extend(report.given.have.map(|_| "alone"));
    table_of(&heads, report.clients.iter().map(row))
}

fn row(client: &Client) -> String {
    let size = &client.size;
    let mark = match client.unknown_sizing {
        true => "<br><span class=\"doubt\">its sizing is not known: D may be too small</span>",
        false => "",
    };
    let why = escape(&client.why);
    let mut cells = vec![format!("<td>{}<br><span class=\"why\">{why}</span>{mark}</td>", escape(&client.file))];
    cells.extend([size.rows, size.slots, size.window, size.dump].map(|n| plain(&grouped(n))));
    cells.extend(client.written.programs.map(|programs| plain(&grouped(programs.all()))));
    cells.extend([client.written.time, client.alone].map(|time| plain(&time.up())));
    cells.extend(client.fit.as_ref().map(|fit| match fit.fits {
        true => plain("yes"),
        false => "<td class=\"no\">NO</td>".to_owned(),
    }));
    format!("<tr>{}</tr>\n", cells.concat())
}

/// What would fall silent where a client does not fit by itself.
fn alone(report: &Report) -> String {
    let Some(have) = report.given.have else {
        return String::new();
    };
    let mut body = String::new();
    for (client, fit) in report.lacking() {
        let tests = list(fit.silent.iter().map(ToString::to_string).chain(fit.volatility.clone()));
        let said = escape(&room(client, fit));
        body.push_str(&format!("<div class=\"whole\"><p><b>{}</b>: {said}.</p>{tests}</div>\n", escape(&client.file)));
    }
    section(&format!("What would fall silent in {have} ms, each client alone in its box"), &body)
}

fn changes(report: &Report, against: &Against) -> String {
    let [more, new, gone] = against.counts();
    let now = report.boxes.first().map_or(Time(0), |one| one.total);
    let (before, now) = (against.before.up(), now.up());
    let lead = format!(
        "<p class=\"lead\">Before {before} ms, now {now} ms: {} more, {new} new, {gone} gone.</p>",
        needs(more)
    );
    let row = |change: &Change| {
        let rows = |brief: &Option<super::against::Brief>| brief.map_or("-".to_owned(), |brief| grouped(brief.rows));
        let time = |brief: &Option<super::against::Brief>| brief.map_or("-".to_owned(), |brief| brief.writing.up());
        let (before, now) = (&change.before, &change.now);
        let cells = [rows(before), rows(now), time(before), time(now), change_said(change)].map(|text| plain(&text));
        format!("<tr>{}{}</tr>\n", plain(&change.client), cells.concat())
    };
    let heads = ["client", "D before", "D now", "writing before, ms", "writing now, ms", ""];
    section("Before and now", &(lead + &table_of(&heads, against.changes.iter().map(row))))
}

fn limited(report: &Report) -> String {
    let Some((limits, have)) = limits(&report.given).zip(report.given.have) else {
        return String::new();
    };
    let cell = |(slots, rows): &(u64, u64)| format!("<span><i>K {slots}</i> {}</span>", counted(*rows, "row", "rows"));
    let cells: String = limits.iter().map(cell).collect();
    let lead = format!("<p class=\"lead\">{}:</p>", escape(&limits_said(report, have)));
    section("Limits for clients", &format!("{lead}<div class=\"limits\">{cells}</div>"))
}

fn reckoned(report: &Report) -> String {
    let Some(worst) = report.worst() else {
        return String::new();
    };
    let part = |(title, formulas): &(String, Vec<Formula>)| {
        format!("<p class=\"lead\">{}:</p>{}", escape(title), formula_table(formulas))
    };
    let body: String = formulas::sections(report, worst).iter().map(part).collect();
    section("How it is reckoned", &body)
}

fn formula_table(formulas: &[Formula]) -> String {
    let row = |f: &Formula| {
        let cells = [f.name, &f.formula, &f.numbers, &f.result].map(plain);
        format!("<tr>{}</tr>", cells.concat())
    };
    let rows: String = formulas.iter().map(row).collect();
    format!("<table class=\"formulas\"><tbody>{rows}</tbody></table>")
}

fn notes(report: &Report) -> String {
    let notes = report.clients.iter().flat_map(|c| c.notes.iter().map(move |note| format!("{}: {note}", c.file)));
    section("Notes", &list(report.left_out.iter().cloned().chain(notes)))
}

/// What the sheet is found again by.
fn identity(report: &Report) -> String {
    let sheet = &report.sheet;
    let mut lines = vec![
        ("command", sheet.command.clone()),
        ("date", sheet.date.clone()),
        ("program", format!("ysh {VERSION}")),
        ("library", format!("libcapi.a, SHA-256 {LIBRARY}")),
    ];
    lines.retain(|(_, said)| !said.is_empty());
    let line = |(what, said): &(&str, String)| format!("<p><b>{what}</b> <code>{}</code></p>\n", escape(said));
    let told = format!("<div class=\"asked\">{}</div>", lines.iter().map(line).collect::<String>());
    let rows = report.clients.iter().flat_map(|client| &client.digests);
    let rows =
        rows.map(|(file, hash)| format!("<tr>{}<td class=\"left\"><code>{hash}</code></td></tr>\n", plain(file)));
    told + &table_of(&["file", "SHA-256"], rows).replace("<table>", "<table class=\"digests\">")
}

const SIGNATURE: &str = "<div class=\"sign\"><div>Checked by</div><div>Date</div><div>Signature</div></div>";
