//! What was asked and what came out, in the words that text and page share.

use super::boxes::{Boxed, Verdict};
use super::given::{Given, HaveFrom};
use super::plan::{Commit, Flash};
use super::report::{Client, Fit, Report};
use super::supply::{farads, next_of, E12, E6};
use super::units::Time;
use crate::columns::{counted, grouped};
use crate::table::number;

/// The verdict, first of all: on the box, or on each of them.
pub fn verdict(report: &Report) -> String {
    let boxes = &report.boxes;
    match (report.given.have, report.given.dumps) {
        _ if report.clients.is_empty() => "no file was answered".to_owned(),
        (_, Some(n)) => each_file(report, n),
        (None, _) if boxes.len() == 1 => format!("the box takes {}", taken(&boxes[0])),
        (None, _) => format!("{}: the longest takes {}", all(boxes), taken(report.worst_box().unwrap_or(&boxes[0]))),
        (Some(have), _) if boxes.len() == 1 => {
            let (verdict, there) = (boxes[0].verdict(have), there_are(have));
            format!("{} {verdict}; {} and {there}", of_box(&boxes[0]), it_takes(&boxes[0]))
        }
        (Some(have), _) => several(report, have),
    }
}

fn of_box(one: &Boxed) -> String {
    match one.name.is_empty() {
        true => "the box".to_owned(),
        false => format!("box {}", one.name),
    }
}

fn all(boxes: &[Boxed]) -> String {
    counted(boxes.len() as u64, "box", "boxes")
}

fn taken(one: &Boxed) -> String {
    format!("{} ms: {}", one.total.up(), dumps(one.dumps()))
}

fn it_takes(one: &Boxed) -> String {
    let take = if one.dumps() == 1 { "takes" } else { "take" };
    format!("{} {take} {} ms,", dumps(one.dumps()), one.total.up())
}

fn there_are(have: Time) -> String {
    format!("there are {have} ms")
}

pub fn dumps(n: u64) -> String {
    match n {
        1 => "1 dump".to_owned(),
        n => format!("{} dumps one after another", grouped(n)),
    }
}

/// How many boxes do not fit, and which.
fn several(report: &Report, have: Time) -> String {
    let short = report.short_boxes();
    let unknown = report.boxes.iter().filter(|one| matches!(one.verdict(have), Verdict::Unknown(_))).count() as u64;
    let all = all(&report.boxes);
    let rest = match unknown {
        0 => String::new(),
        n => format!("; {} not answered", counted(n, "is", "are")),
    };
    match short.len() as u64 {
        0 if unknown == 0 => format!("all {all} fit in {have} ms"),
        0 => format!("no box of {all} is known not to fit in {have} ms{rest}"),
        n => {
            let names: Vec<&str> = short.iter().map(|one| &one.name[..]).take(8).collect();
            let more = if short.len() > names.len() { " and others" } else { "" };
            let fit = if n == 1 { "does not fit" } else { "do not fit" };
            format!("{} of {all} {fit} in {have} ms: {}{more}{rest}", grouped(n), names.join(", "))
        }
    }
}

/// Each file as a box of so many such clients.
fn each_file(report: &Report, n: u64) -> String {
    let such = format!("{} of {}", dumps(n), if n == 1 { "it" } else { "each" });
    let worst = report.worst_box().map_or(String::new(), |one| format!("{} ms: {}", one.total.up(), one.name));
    let Some(have) = report.given.have else {
        return format!("each file a box of its own, {such}: the longest takes {worst}");
    };
    match (report.short_boxes().len() as u64, report.clients.len() as u64) {
        (0, all) => {
            format!("{} in {have} ms, each a box of its own, {such}", counted(all, "file fits", "files all fit"))
        }
        (short, all) => {
            let fit = if short == 1 { "does not fit" } else { "do not fit" };
            let of = counted(all, "file", "files");
            format!(
                "{} of {of} {fit} in {have} ms, each a box of its own, {such}: the longest takes {worst}",
                grouped(short)
            )
        }
    }
}

/// What was asked: what it is about, and what was said of it.
pub fn asked(given: &Given) -> Vec<(&'static str, String)> {
    let mut lines = vec![("flash", flash(given)), ("commit", commit(given))];
    let from = match &given.call_from {
        Some(from) => format!(" ({from})"),
        None if given.call == Time(0) => " (none was told)".to_owned(),
        None => " (as it was told)".to_owned(),
    };
    lines.push(("call", format!("the longest takes {} ms{from}", given.call)));
    let decides = if given.consume > given.call { "; it decides" } else { "; the longest call decides" };
    let consume = || ("consume", format!("the program that does so takes {} ms{decides}", given.consume));
    lines.extend((given.consume > Time(0)).then(consume));
    lines.extend((!given.margin.is_none()).then(|| ("margin", format!("{} on the whole time", given.margin))));
    lines.extend(supply(given).map(|said| ("supply", said)));
    lines.extend(given.have.map(|have| ("there is", there_is(given, have))));
    lines
}

fn there_is(given: &Given, have: Time) -> String {
    match given.have_from {
        HaveFrom::Told => format!("{have} ms of hold-up time"),
        HaveFrom::Capacitor(capacitance) => format!("{}: {} ms of hold-up time", farads(capacitance), have.down()),
        HaveFrom::Before => format!("{have} ms of hold-up time: what the clients of before take"),
    }
}

fn flash(given: &Given) -> String {
    let part = match (given.plan.flash, given.typical) {
        (Flash::Pages { size, time, .. }, None) => format!("pages of {} bytes, {time} ms each", grouped(size)),
        (Flash::Pages { size, time, .. }, Some(typical)) => {
            format!("pages of {} bytes, {time} ms each at most, which decides ({typical} ms typically)", grouped(size))
        }
        (Flash::Rate(rate), _) => format!("{} bytes a second", grouped(rate)),
    };
    let repeated = match given.plan.flash {
        Flash::Pages { repeats, .. } if repeats > 0 => {
            format!("; {} of a dump repeated", counted(repeats, "program", "programs"))
        }
        _ => String::new(),
    };
    let erased = match given.plan.erase {
        Time(0) => "erased ahead".to_owned(),
        time => format!("{time} ms to erase the area of a dump"),
    };
    format!("{part}{repeated}; {erased}; {} ms before the first byte", given.before)
}

fn commit(given: &Given) -> String {
    let time = given.plan.committing();
    match (given.plan.flash, given.plan.commit) {
        (Flash::Rate(_), _) if given.plan.commit_time.is_none() => {
            "what makes it an image goes last; no time was given for it, and 0 ms are counted (--commit-time)"
                .to_owned()
        }
        (Flash::Rate(_), _) => format!("what makes it an image goes last, in {time} ms"),
        (_, Commit::Mark) => format!("the header's first 8 bytes go last, in a program of their own of {time} ms"),
        (_, Commit::Page) => {
            "the page with the mark goes last, whole; the part must detect or exclude a torn page".to_owned()
        }
        (_, Commit::Seal) => {
            format!("a unit of the driver's own behind the image goes last, in a program of {time} ms")
        }
    }
}

fn supply(given: &Given) -> Option<String> {
    let supply = given.supply.as_ref()?;
    let percent = |lost: f64| format!("{}%", number((lost * 1e9).round() / 1e7));
    let at = match supply.efficiency {
        Some(efficiency) => format!("at the load, behind a converter of {}", percent(efficiency)),
        None => "at the capacitor".to_owned(),
    };
    let mut said = format!("{} W {at}, from {} V down to {} V", supply.power, supply.drop, supply.lowest);
    if supply.esr > 0.0 {
        said.push_str(&format!(", {} ohm in series", number(supply.esr)));
    }
    let (tolerance, age) = (percent(supply.tolerance), percent(supply.age));
    said.push_str(&format!("; {tolerance} lost to tolerance, {age} to age"));
    if supply.temperature > 0.0 {
        said.push_str(&format!(", {} to temperature", percent(supply.temperature)));
    }
    Some(said)
}

/// What a time has room for, against what a client needs.
pub fn room(client: &Client, fit: &Fit) -> String {
    let needs = counted(client.size.rows, "row", "rows");
    match fit.rows {
        0 => format!("it needs {needs}, and there is no time for even one"),
        rows => {
            let silent = counted(fit.silent.len() as u64, "test falls", "tests fall");
            format!("it needs {needs}, and {} would fit; {silent} silent in that window", grouped(rows))
        }
    }
}

/// The capacitance for a time, and the next values that are sold.
pub fn capacitance(given: &Given, time: Time) -> Option<String> {
    let capacitance = given.supply?.capacitance(time);
    let (e6, e12) = (next_of(&E6, capacitance), next_of(&E12, capacitance));
    Some(format!("{} (next of E12 {e12}, of E6 {e6})", farads(capacitance)))
}

/// What the figures stand on and do not say, for the sheet.
pub const ASSUMED: [&str; 6] = [
    "D is proved, and answered by the library: how many rows a box has to keep so that its rules answer as over all bars there ever were. \
     K is the slots of a row.",
    crate::commands::depth::NOT_IN_D,
    "The programs are those of docs/FLASH.md: every page of the image once, and the commit last. A driver that writes otherwise takes \
     another time.",
    "Times of the flash, the supply and the capacitor are as they were told, from data sheets or measured, and are not proved.",
    "The areas were erased ahead of the loss, unless a time to erase is told above.",
    "Nothing else draws on the capacitor, and no call is begun after the supply fell but those of the dump.",
];
