//! The answer for people.

use super::against::{Against, Brief, Change};
use super::formulas::{self, Formula};
use super::limits::limits;
use super::plan::Flash;
use super::report::{Client, Report};
use super::told::{asked, capacitance, room, verdict};
use super::units::Time;
use crate::columns::{columns, counted, grouped, Side};
use crate::commands::depth::NOT_IN_D;

/// As wide as a line of formulas may be.
const MOST_LETTERS: usize = 120;

pub fn text(report: &Report) -> String {
    let mut lines = vec![verdict(report)];
    lines.extend(boxes(report));
    lines.push(String::new());
    lines.extend(asked(&report.given).iter().map(|(what, said)| format!("{what:<8} {said}")));
    lines.push(String::new());
    lines.extend(table(report));
    lines.extend(report.left_out.iter().map(|said| format!("LOOK     {said}")));
    lines.push(String::new());
    lines.extend(ends(report));
    lines.extend(report.given.have.map_or(Vec::new(), |have| alone(report, have)));
    lines.extend(report.against.as_ref().map_or(Vec::new(), |against| changes(report, against)));
    lines.extend(limited(report));
    lines.extend(reckoned(report));
    if report.clients.iter().any(|client| client.size.slots > 0) {
        lines.extend([String::new(), format!("not in D: {NOT_IN_D}")]);
    }
    lines.join("\n") + "\n"
}

/// A line for each box, where they have names.
fn boxes(report: &Report) -> Vec<String> {
    if !report.named() {
        return Vec::new();
    }
    let mut heads = vec![("  box", Side::Left), ("dumps", Side::Right)];
    let pages = matches!(report.given.plan.flash, Flash::Pages { .. });
    heads.extend(pages.then_some(("programs", Side::Right)));
    heads.extend([("time ms", Side::Right), ("", Side::Left)]);
    let rows = report.boxes.iter().map(|one| {
        let mut row = vec![format!("  {}", one.name), grouped(one.dumps())];
        row.extend(one.programs.map(grouped));
        row.push(one.total.up());
        row.push(report.given.have.map_or(String::new(), |have| one.verdict(have).to_string()));
        row
    });
    columns(&heads, &rows.collect::<Vec<_>>())
}

fn table(report: &Report) -> Vec<String> {
    let pages = matches!(report.given.plan.flash, Flash::Pages { .. });
    let (time, fits) = match report.given.dumps {
        None => ("alone ms", "alone"),
        Some(_) => ("time ms", "fits"),
    };
    let mut heads = vec![("file", Side::Left)];
    heads.extend(["D", "K", "dump B"].map(|head| (head, Side::Right)));
    heads.extend(pages.then_some(("programs", Side::Right)));
    heads.extend(["writing ms", time].map(|head| (head, Side::Right)));
    heads.extend(report.given.have.map(|_| (fits, Side::Left)));
    let row = |client: &Client| {
        let size = &client.size;
        let mark = if client.unknown_sizing { " (sizing not known: D may be too small)" } else { "" };
        let mut row = vec![format!("{}{mark}", client.file)];
        row.extend([grouped(size.rows), size.slots.to_string(), grouped(size.dump)]);
        row.extend(client.written.programs.map(|programs| grouped(programs.all())));
        row.extend([client.written.time.up(), client.alone.up()]);
        row.extend(client.fit.as_ref().map(|fit| if fit.fits { "yes" } else { "NO" }.to_owned()));
        row
    };
    columns(&heads, &report.clients.iter().map(row).collect::<Vec<_>>())
}

/// The longest box, the worst client, and what they need.
fn ends(report: &Report) -> Vec<String> {
    let (Some(worst), Some(longest)) = (report.worst(), report.worst_box()) else {
        return vec!["no file was answered".to_owned()];
    };
    let farads = |time: Time| capacitance(&report.given, time).map_or(String::new(), |said| format!(", {said}"));
    let mut lines = Vec::new();
    if report.clients.len() > 1 {
        let name = if longest.name.is_empty() { String::new() } else { format!(": {}", longest.name) };
        lines.push(format!("box      {} ms{}{name}", longest.total.up(), farads(longest.total)));
    }
    let alone = if report.clients.len() > 1 && report.given.dumps.is_none() { " alone" } else { "" };
    lines.push(format!("worst    {} ms{alone}{}: {}", worst.alone.up(), farads(worst.alone), worst.file));
    lines.push(format!("         {}", worst.why));
    lines.extend(longest.typical.map(|time| format!("typical  {} ms for the longest box", time.up())));
    if !report.problems.is_empty() {
        let n = report.problems.len() as u64;
        lines.push(format!(
            "MISSING  {} not answered, and in none of these figures",
            counted(n, "file is", "files are")
        ));
    }
    lines
}

/// Which clients fit in the time that is there, each by itself, and what would fall silent in those that do not.
fn alone(report: &Report, have: Time) -> Vec<String> {
    let (fitting, all) = (report.fitting() as u64, report.clients.len() as u64);
    if fitting == all && all < 2 {
        return Vec::new();
    }
    let files = counted(all, "file fits", "files fit");
    let alone = if report.given.dumps.is_none() { ", each alone in its box" } else { "" };
    let mut lines = vec![String::new(), format!("{} of {files} in {have} ms{alone}", grouped(fitting))];
    for (client, fit) in report.lacking() {
        lines.push(format!("{}: {}", client.file, room(client, fit)));
        lines.extend(fit.silent.iter().map(|test| format!("  {test}")));
        lines.extend(fit.volatility.iter().map(|line| format!("  {line}")));
    }
    lines
}

/// The clients of before against those of now.
fn changes(report: &Report, against: &Against) -> Vec<String> {
    let [more, new, gone] = against.counts();
    let now = report.boxes.first().map_or(Time(0), |one| one.total);
    let mut lines = vec![
        String::new(),
        format!("before {} ms, now {} ms: {} more, {new} new, {gone} gone", against.before.up(), now.up(), needs(more)),
    ];
    let heads = [("client", Side::Left), ("D before", Side::Right), ("D now", Side::Right), ("K before", Side::Right)];
    let rest = [("K now", Side::Right), ("writing ms before", Side::Right), ("now", Side::Right), ("", Side::Left)];
    let rows: Vec<Vec<String>> = against.changes.iter().map(change).collect();
    lines.extend(columns(&[heads, rest].concat(), &rows));
    lines
}

pub fn needs(more: u64) -> String {
    counted(more, "client needs", "clients need")
}

fn change(change: &Change) -> Vec<String> {
    let part = |brief: &Option<Brief>, of: fn(&Brief) -> String| brief.as_ref().map_or("-".to_owned(), of);
    let rows: fn(&Brief) -> String = |b| grouped(b.rows);
    let slots: fn(&Brief) -> String = |b| grouped(b.slots);
    let writing: fn(&Brief) -> String = |b| b.writing.up();
    let (before, now) = (&change.before, &change.now);
    let all = [part(before, rows), part(now, rows), part(before, slots), part(now, slots)];
    let times = [part(before, writing), part(now, writing), change_said(change)];
    [vec![change.client.clone()], all.to_vec(), times.to_vec()].concat()
}

pub fn change_said(change: &Change) -> String {
    let (before, now) = change.writing();
    match (&change.before, &change.now) {
        (None, _) => "new".to_owned(),
        (_, None) => "gone".to_owned(),
        _ if now > before => format!("{} ms more", now.less(before).up()),
        _ if now < before => format!("{} ms less", before.less(now).up()),
        _ => "as before".to_owned(),
    }
}

/// The rows that fit by K, in five columns.
fn limited(report: &Report) -> Vec<String> {
    const LONG: usize = 13;
    let Some((limits, have)) = limits(&report.given).zip(report.given.have) else {
        return Vec::new();
    };
    let heads: Vec<(&str, Side)> =
        (0..limits.len().div_ceil(LONG)).flat_map(|_| ["K", "rows"]).map(|h| (h, Side::Right)).collect();
    let cells = |(slots, rows): &(u64, u64)| [grouped(*slots), grouped(*rows)];
    let row = |at: usize| limits.iter().skip(at).step_by(LONG).flat_map(cells).collect::<Vec<_>>();
    let lines = columns(&heads, &(0..LONG).map(row).collect::<Vec<_>>());
    [vec![String::new(), limits_said(report, have)], lines].concat()
}

pub fn limits_said(report: &Report, have: Time) -> String {
    match report.given.copies() {
        1 => format!("the rows that fit in {have} ms for a client of K slots, alone in its box"),
        n => format!("the rows that fit in {have} ms for each of {} clients of K slots in a box", grouped(n)),
    }
}

fn reckoned(report: &Report) -> Vec<String> {
    let Some(worst) = report.worst() else { return Vec::new() };
    let mut lines = Vec::new();
    for (title, formulas) in formulas::sections(report, worst) {
        lines.extend([String::new(), title]);
        lines.extend(aligned(&formulas));
    }
    lines
}

/// A formula a line; one that is long goes on below, at its second sign.
fn aligned(formulas: &[Formula]) -> Vec<String> {
    let width = formulas.iter().map(|formula| formula.name.len()).max().unwrap_or(0);
    let lines = |f: &Formula| {
        let (first, second) =
            (format!("  {:<width$} = {}", f.name, f.formula), format!("= {} = {}", f.numbers, f.result));
        match first.chars().count() + second.chars().count() < MOST_LETTERS {
            true => vec![format!("{first} {second}")],
            false => vec![first, format!("  {:width$} {second}", "")],
        }
    };
    formulas.iter().flat_map(lines).collect()
}
