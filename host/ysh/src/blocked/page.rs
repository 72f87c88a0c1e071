//! What kept a rule from a yes, as a page of its own: the rule with its counts, and a strip over time, in which a click shows a bar's
//! chain. No network, and no script but its own.

use serde::Serialize;
use yshturpa::{Position, Tree};

use super::asker::{is_missing, Answers};
use super::shape::{Shape, Sort};
use super::tally::Stamp;
use super::text::Told;
use super::values::{Values, MILLIONS, TOGETHER};
use crate::columns::grouped;
use crate::page as skeleton;
use crate::show::Clock;
use crate::source::Source;
use crate::svg::escape;

const STYLE: &str = concat!(include_str!("../why/tree.css"), include_str!("strip.css"));
const SCRIPT: &str = include_str!("strip.js");

/// What was said at each bar of a stretch.
pub struct Strip<'a> {
    source: &'a Source,
    shape: Shape,
    bars: usize,
    numbers: Steps,
    times: Steps,
    /// A letter for each bar, of each test: y, n, m (missing), or - where the rule was not asked.
    said: Vec<Runs<u8>>,
    /// The part that decided, or -1 where the rule was not asked, and what the rule said.
    decided: Runs<(i64, bool)>,
    values: Values,
}

impl<'a> Strip<'a> {
    /// Before the first bar; none for a rule that is absent.
    pub fn of(source: &'a Source, tree: Tree) -> Option<Strip<'a>> {
        let shape = Shape::of(&source.forest, tree)?;
        Some(Strip {
            source,
            bars: 0,
            numbers: Steps::default(),
            times: Steps::default(),
            said: vec![Runs::default(); shape.tests.len()],
            decided: Runs::default(),
            values: Values::default(),
            shape,
        })
    }

    pub fn add(&mut self, at: Stamp, said: Option<(&Answers, &Position)>) {
        self.bars += 1;
        self.numbers.add(at.bar as i64);
        self.times.add(at.time);
        let Some((answers, position)) = said else {
            self.said.iter_mut().for_each(|letters| letters.add(b'-'));
            self.decided.add((-1, false));
            self.values.skip();
            return;
        };
        for (letters, line) in self.said.iter_mut().zip(&answers.tests) {
            letters.add(match (line.answer, is_missing(line)) {
                (true, _) => b'y',
                (false, true) => b'm',
                (false, false) => b'n',
            });
        }
        self.decided.add((answers.decided as i64, answers.answer));
        // The lines of the tests that the chain ends at: the one that decided, or all below an All or an Any.
        let ends = self.shape.tests_below(answers.decided);
        self.values.add(self.source, position, at, ends.iter().map(|&test| &answers.tests[test]));
    }
}

/// Equal things one after another, and how many.
#[derive(Clone)]
struct Runs<T>(Vec<(T, u64)>);

impl<T> Default for Runs<T> {
    fn default() -> Runs<T> {
        Runs(Vec::new())
    }
}

impl<T: PartialEq> Runs<T> {
    fn add(&mut self, one: T) {
        match self.0.last_mut() {
            Some((same, count)) if *same == one => *count += 1,
            _ => self.0.push((one, 1)),
        }
    }
}

/// Numbers one after another: the first, the last, and how far each is from the one before it.
#[derive(Default)]
struct Steps {
    ends: Option<(i64, i64)>,
    steps: Runs<i64>,
}

impl Steps {
    fn add(&mut self, next: i64) {
        if let Some((first, last)) = self.ends.replace((next, next)) {
            self.ends = Some((first, next));
            self.steps.add(next.wrapping_sub(last));
        }
    }

    fn first(&self) -> i64 {
        self.ends.map_or(0, |(first, _)| first)
    }

    fn told(&self) -> Vec<[i64; 2]> {
        self.steps.0.iter().map(|(step, count)| [*step, *count as i64]).collect()
    }
}

#[derive(Serialize)]
struct Data<'a> {
    /// `seconds`, `milliseconds` or `number`.
    clock: &'static str,
    /// The first bar's number and time; then how far the next is, and how often so.
    first: [i64; 2],
    numbers: Vec<[i64; 2]>,
    times: Vec<[i64; 2]>,
    /// For each test its part, and letters with how often they come one after another.
    tests: Vec<(usize, String)>,
    parts: Vec<PartData>,
    /// The part that decided, or -1, whether the rule said yes, and how many bars in a row.
    decided: Vec<(i64, bool, u64)>,
    /// What the tests said that a chain ends at, as `Values` has it: words, texts, and how many bars a text has.
    words: &'a [String],
    values: &'a [String],
    together: usize,
    /// How the values of other bars are asked for.
    why: &'a str,
}

#[derive(Serialize)]
struct PartData {
    label: String,
    above: i64,
    not: bool,
}

fn data(told: &Told, strip: &Strip) -> String {
    let parts = told.shape.parts.iter().enumerate().map(|(part, it)| PartData {
        label: format!("#{} {}", it.node, told.part(part)),
        above: it.above.map_or(-1, |above| above as i64),
        not: it.sort == Sort::Not,
    });
    let letters = |runs: &Runs<u8>| {
        runs.0.iter().map(|(letter, count)| format!("{}{count}", *letter as char)).collect::<String>()
    };
    let data = Data {
        clock: match told.clock() {
            Clock::Seconds => "seconds",
            Clock::Milliseconds => "milliseconds",
            Clock::Number => "number",
        },
        first: [strip.numbers.first(), strip.times.first()],
        numbers: strip.numbers.told(),
        times: strip.times.told(),
        tests: told.shape.tests.iter().zip(&strip.said).map(|(&part, said)| (part, letters(said))).collect(),
        parts: parts.collect(),
        decided: strip.decided.0.iter().map(|((part, yes), count)| (*part, *yes, *count)).collect(),
        words: &strip.values.words,
        values: &strip.values.texts,
        together: TOGETHER,
        why: "ysh why",
    };
    // Nothing in a text may end the script that holds it.
    serde_json::to_string(&data).expect("a page's data is JSON").replace('<', "\\u003c")
}

pub fn page(told: &Told, strip: &Strip) -> String {
    let head = told.head();
    let title = format!("What kept the {} of {} from a yes", told.blocked.tree.name(), told.source.file);
    let line = |line: &String| match line.split_once("  ") {
        Some((what, said)) => format!("<p><b>{what}</b> {}</p>\n", escape(said.trim())),
        None => format!("<p>{}</p>\n", escape(line)),
    };
    let over_time = match told.blocked.bars {
        0 => String::new(),
        _ => strip_part(told),
    };
    let body = format!(
        "<h1>{}</h1>\n<div class=\"asked\">{}</div>\n<h2>The rule and its tests</h2>\n<p class=\"why\">{}</p>\n<ul class=\"tree\">{}</ul>\n{over_time}{}",
        escape(&title),
        head.iter().map(line).collect::<String>(),
        LEGEND,
        node(told, 0),
        footer(strip),
    );
    skeleton::page(&title, STYLE, &[body, skeleton::script_over("data", &data(told, strip), SCRIPT)])
}

const LEGEND: &str = "<span class=\"key yes\"></span> yes <span class=\"key no\"></span> no <span class=\"key none\"></span> no, for want of a value or of \
    bars <span class=\"key not\"></span> not asked. Decided: how often the chain ended there while the rule said no. Alone: how often this test alone kept the rule \
    from a yes.";

/// A part of the rule with its counts, and all that is below it.
fn node(told: &Told, part: usize) -> String {
    let count = &told.blocked.tally.parts[part];
    let all = told.blocked.asked.max(1) as f64;
    let share =
        |class: &str, n: u64| format!("<i class=\"{class}\" style=\"width:{:.2}%\"></i>", n as f64 / all * 100.0);
    let bar = [share("yes", count.yes), share("no", count.no), share("none", count.missing)].concat();
    let mut said = vec![format!("yes {}", grouped(count.yes)), format!("no {}", grouped(count.no))];
    let more =
        [("missing", count.missing), ("decided", count.decided), ("alone", count.turning), ("longest", count.longest)];
    said.extend(more.into_iter().filter(|(_, n)| *n > 0).map(|(what, n)| format!("{what} {}", grouped(n))));
    if let (Some(first), Some(last)) = (count.first, count.last) {
        said.push(format!("from {} to {}", told.stamp(Some(first)), told.stamp(Some(last))));
    }
    let it = &told.shape.parts[part];
    let below: String = it.below.iter().map(|&child| node(told, child)).collect();
    let below = if below.is_empty() { below } else { format!("<ul>{below}</ul>") };
    let class = if count.decided > 0 { " class=\"on\"" } else { "" };
    format!(
        "<li{class}><span><i>{}</i> {} <em class=\"counts\">{bar}</em><small>{}</small></span>{below}</li>\n",
        it.node,
        escape(&told.part(part)),
        escape(&said.join(" · ")),
    )
}

fn strip_part(told: &Told) -> String {
    let names: String = told.shape.tests.iter().map(|&part| format!("<li>{}</li>", escape(&told.part(part)))).collect();
    let of = |what: &str| format!("A strip over {what}, one row a test");
    format!(
        "<h2>Over time</h2>\n<p class=\"why\">One row a test, in this order. A click on the upper strip moves the lower one there; a click on the \
         lower one, or the arrow keys, show a bar's chain.</p>\n<ol class=\"tests\">{names}</ol>\n\
         <canvas id=\"whole\" role=\"img\" aria-label=\"{}\"></canvas>\n<p class=\"ends\"><span id=\"begin\"></span><span id=\"end\"></span></p>\n\
         <canvas id=\"near\" role=\"img\" aria-label=\"{}\" tabindex=\"0\"></canvas>\n<p class=\"ends\"><span id=\"from\"></span><span id=\"to\"></span></p>\n\
         <div id=\"chain\" aria-live=\"polite\"></div>\n",
        of("all bars"),
        of("some bars"),
    )
}

/// Which bars have the values of their chain here.
fn valued(strip: &Strip) -> String {
    let there = strip.values.bars;
    match there < strip.bars {
        false => format!("Every bar has the values of its chain here; a page takes {MILLIONS} MB of them at most."),
        true => format!(
            "The first {} of {} bars have the values of their chain here, as a page takes {MILLIONS} MB of them at most; with --from and --to \
             it is of other bars.",
            grouped(there as u64),
            grouped(strip.bars as u64),
        ),
    }
}

fn footer(strip: &Strip) -> String {
    format!(
        "<footer><p>What a test says, and the chain, are the proved engine's. What a rule would say with one test turned around is all, any and not of \
         its tests. {} Written by ysh {}.</p></footer>",
        valued(strip),
        env!("CARGO_PKG_VERSION")
    )
}

#[cfg(test)]
mod tests {
    use super::*;

    #[test]
    fn what_comes_one_after_another_is_counted() {
        let mut runs = Runs::default();
        [1, 1, 2, 1].into_iter().for_each(|one| runs.add(one));
        assert_eq!(runs.0, [(1, 2), (2, 1), (1, 1)]);
        let steps = |all: &[i64]| {
            let mut steps = Steps::default();
            all.iter().for_each(|one| steps.add(*one));
            (steps.first(), steps.told())
        };
        assert_eq!(steps(&[5, 65, 125, 130]), (5, vec![[60, 2], [5, 1]]));
        assert_eq!((steps(&[]), steps(&[4])), ((0, vec![]), (4, vec![])));
    }
}
