//! What kept a rule from a yes, as text.

use yshturpa::WhyLine;

use super::shape::{Shape, Sort};
use super::tally::Stamp;
use super::watch::{Blocked, Missed, Why};
use crate::columns::{columns, counted, grouped, Side};
use crate::show::Clock;
use crate::source::Source;
use crate::table::Words;
use crate::why::words::Telling;

/// As many bars that were one test away as are shown.
const SHOWN: usize = 10;

/// A stretch that was watched, and what it is told with.
pub struct Told<'a> {
    pub blocked: &'a Blocked,
    pub shape: &'a Shape,
    pub source: &'a Source,
    pub bars_file: &'a str,
}

impl Told<'_> {
    pub fn words(&self) -> Words<'_> {
        Words { forest: &self.source.forest, names: &self.source.names }
    }

    pub fn clock(&self) -> Clock {
        match (self.blocked.first, self.blocked.last) {
            (Some(first), Some(last)) => Clock::of(first.time, last.time),
            _ => Clock::Number,
        }
    }

    /// What a part is called: a test whole, any other by its own name.
    pub fn part(&self, part: usize) -> String {
        let it = &self.shape.parts[part];
        match it.sort {
            Sort::Test(_) => self.words().whole(it.node),
            _ => self.words().label(it.node),
        }
    }

    /// Which rule over which bars, at how many of them it was asked, and what it said there.
    pub fn head(&self) -> Vec<String> {
        let Blocked { tree, bars, asked, yes, not_asked, first, last, .. } = self.blocked;
        let clock = self.clock();
        let stretch = match (first, last) {
            (Some(first), Some(last)) => format!(", {} to {}", clock.text(first.time), clock.text(last.time)),
            _ => String::new(),
        };
        let reasons = Why::ALL.into_iter().zip(not_asked).filter(|(_, count)| **count > 0);
        let reasons: Vec<String> =
            reasons.map(|(why, count)| format!("{} {}", why.words(*tree), grouped(*count))).collect();
        let not = if reasons.is_empty() { String::new() } else { format!("; not asked: {}", reasons.join(", ")) };
        vec![
            format!("rules     {}, {}", self.source.file, tree.name()),
            format!("bars      {} of {}{stretch}", counted(*bars, "bar", "bars"), self.bars_file),
            format!("asked     at {}{not}", counted(*asked, "bar", "bars")),
            format!("answered  yes {}, no {}", grouped(*yes), grouped(asked - yes)),
        ]
    }

    pub fn stamp(&self, at: Option<Stamp>) -> String {
        at.map_or(String::new(), |at| self.clock().text(at.time))
    }

    /// What the tests said that alone kept the rule from a yes at a bar.
    pub fn missed(&self, missed: &Missed) -> Vec<String> {
        let said = |&test: &usize| self.said(&missed.answers.tests[test], &missed.position, missed.at);
        missed.tests.iter().map(said).collect()
    }

    /// A test's line in words, with its number.
    pub fn said(&self, line: &WhyLine, position: &yshturpa::Position, at: Stamp) -> String {
        let (forest, names) = (&self.source.forest, &self.source.names[..]);
        let telling = Telling { forest, names, position, bars: at.bar + 1 };
        format!("#{} {}", line.node, telling.line(line))
    }
}

pub fn text(told: &Told) -> String {
    let mut lines = told.head();
    let blocked = told.blocked;
    if blocked.asked > 0 {
        lines.push(String::new());
        lines.extend(table(told));
        lines.push(String::new());
        lines.extend(away(told));
    }
    lines.join("\n") + "\n"
}

/// A row for each test, and for each other part that a chain ended at.
fn table(told: &Told) -> Vec<String> {
    let clock = told.clock();
    let unit = clock.unit();
    let (first, last) = (format!("first{unit}"), format!("last{unit}"));
    let heads = [
        ("node", Side::Left),
        ("test", Side::Left),
        ("decided", Side::Right),
        ("yes", Side::Right),
        ("no", Side::Right),
        ("missing", Side::Right),
        ("alone", Side::Right),
        ("longest", Side::Right),
        (&first, Side::Left),
        (&last, Side::Left),
    ];
    let rows = told
        .blocked
        .tally
        .parts
        .iter()
        .enumerate()
        .filter(|(part, count)| matches!(told.shape.parts[*part].sort, Sort::Test(_)) || count.decided > 0);
    let rows: Vec<Vec<String>> = rows
        .map(|(part, count)| {
            let mut cells = vec![format!("#{}", told.shape.parts[part].node), told.part(part)];
            cells
                .extend([count.decided, count.yes, count.no, count.missing, count.turning, count.longest].map(grouped));
            cells.extend([told.stamp(count.first), told.stamp(count.last)]);
            cells
        })
        .collect();
    columns(&heads, &rows)
}

/// The bars that were one test away from a yes.
fn away(told: &Told) -> Vec<String> {
    let blocked = told.blocked;
    if blocked.missed_count == 0 {
        return vec!["no bar was one test away from a yes".to_owned()];
    }
    let more = match blocked.missed_count.saturating_sub(SHOWN as u64) {
        0 => String::new(),
        _ => format!("; the first {SHOWN} of them"),
    };
    let mut lines =
        vec![format!("{} one test away from a yes{more}", counted(blocked.missed_count, "bar was", "bars were"))];
    for missed in blocked.missed.iter().take(SHOWN) {
        let said = told.missed(missed).join("; or ");
        lines.push(format!("  bar {}, {}  {said}", missed.at.bar, told.clock().text(missed.at.time)));
    }
    lines
}
