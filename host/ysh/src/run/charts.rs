//! The charts of a run: closes with entries and exits, equity, drawdown; all over the same bars.

use yshturpa::{Point, Trade};

use super::outcome::{reason_words, Outcome};
use crate::axis::Axis;
use crate::lists::List;
use crate::show::{rounded, Clock};
use crate::svg::{Anchor, Svg, LETTER};

const WIDTH: f64 = 1000.0;
const TOP: f64 = 14.0;
const RIGHT: f64 = WIDTH - 16.0;

/// As many trades as are marked.
const MARKED: usize = 1500;

/// The three drawings, their bars one below the other.
pub struct Charts {
    pub closes: String,
    pub equity: String,
    pub drawdown: String,
    /// What stands under the pointer, as JSON.
    pub points: String,
}

impl Charts {
    /// None of them where there was no bar.
    pub fn of(outcome: &Outcome) -> Option<Charts> {
        let bars = outcome.equity.len();
        if bars == 0 {
            return None;
        }
        let fills = outcome.trades.iter().flat_map(|trade| [trade.entry_price, trade.exit_price]);
        let held = hold(outcome).all(f64::is_finite);
        let mut frames = [
            Frame::new(300.0, bars, closes(outcome).chain(fills)),
            Frame::new(
                230.0,
                bars,
                equity(&outcome.equity).chain([outcome.capital]).chain(hold(outcome).filter(|_| held)),
            ),
            Frame::new(150.0, bars, under(equity(&outcome.equity)).chain([0.0])),
        ];
        Frame::align(&mut frames);
        Some(Charts {
            closes: closes_chart(&frames[0], outcome),
            equity: equity_chart(&frames[1], outcome, held),
            drawdown: drawdown_chart(&frames[2], outcome),
            points: points(frames[0].left, outcome),
        })
    }
}

/// Where the bars and the values of a chart stand.
pub struct Frame {
    left: f64,
    bottom: f64,
    axis: Axis,
    bars: usize,
}

impl Frame {
    pub fn new(height: f64, bars: usize, values: impl Iterator<Item = f64>) -> Frame {
        let mut frame = Frame { left: 0.0, bottom: TOP + height, axis: Axis::of(values), bars };
        let widest = frame.axis.ticks().into_iter().map(|tick| rounded(tick).chars().count()).max().unwrap_or(1);
        frame.left = 16.0 + LETTER * widest as f64;
        frame
    }

    /// Puts the same bars of several charts one below the other.
    pub fn align(frames: &mut [Frame]) {
        let left = frames.iter().map(|frame| frame.left).fold(0.0, f64::max);
        frames.iter_mut().for_each(|frame| frame.left = left);
    }

    fn x(&self, bar: usize) -> f64 {
        let share = if self.bars < 2 { 0.5 } else { bar as f64 / (self.bars - 1) as f64 };
        self.left + (RIGHT - self.left) * share
    }

    fn y(&self, value: f64) -> f64 {
        self.bottom - (self.bottom - TOP) * self.axis.share(value)
    }

    /// A drawing with the values' lines and the times of these points below.
    pub fn svg(&self, what: &str, points: &List<Point>) -> Svg {
        let mut svg = Svg::new(WIDTH, self.bottom + 26.0, what);
        for tick in self.axis.ticks() {
            svg.line("grid", (self.left, self.y(tick)), (RIGHT, self.y(tick)));
            svg.text("axis", (self.left - 6.0, self.y(tick) + 4.0), Anchor::End, &rounded(tick));
        }
        let clock = clock_of(points);
        let text = |bar: usize| points.get(bar).map_or(String::new(), |point| clock.text(point.time));
        let widest = [0, self.bars - 1].map(|bar| text(bar).chars().count()).into_iter().max().unwrap_or(1);
        let wide = LETTER * (widest + 3) as f64;
        let most = (((RIGHT - self.left) / wide) as usize).clamp(2, 6).min(self.bars);
        for label in 0..most {
            let bar = if most < 2 { 0 } else { label * (self.bars - 1) / (most - 1) };
            let x = self.x(bar).clamp(wide / 2.0, WIDTH - wide / 2.0);
            svg.text("axis", (x, self.bottom + 18.0), Anchor::Middle, &text(bar));
        }
        svg
    }

    /// A line through the values of so many bars; the least and the greatest of those that share a pixel.
    pub fn line(&self, bars: usize, values: impl Iterator<Item = f64>) -> String {
        let columns = (RIGHT - self.left) as usize;
        let each = bars.div_ceil(columns).max(1);
        let mut outline = String::new();
        let mut broken = true;
        let mut values = values.take(bars).peekable();
        for part in 0.. {
            let Some(&begins) = values.peek() else { break };
            let (mut least, mut most) = (f64::INFINITY, f64::NEG_INFINITY);
            for value in values.by_ref().take(each).filter(|value| value.is_finite()) {
                (least, most) = (least.min(value), most.max(value));
            }
            if least > most {
                broken = true;
                continue;
            }
            let x = self.x(part * each);
            let (first, second) = if begins == most { (most, least) } else { (least, most) };
            let pen = if broken { 'M' } else { 'L' };
            outline.push_str(&format!("{pen}{x:.1},{:.1}", self.y(first)));
            if each > 1 || broken {
                outline.push_str(&format!("L{x:.1},{:.1}", self.y(second)));
            }
            broken = false;
        }
        outline
    }

    /// A line across at a value.
    pub fn level(&self, svg: &mut Svg, class: &str, value: f64) {
        svg.line(class, (self.left, self.y(value)), (RIGHT, self.y(value)));
    }

    /// An upright line at a bar.
    pub fn upright(&self, svg: &mut Svg, class: &str, bar: usize) {
        svg.line(class, (self.x(bar), TOP), (self.x(bar), self.bottom));
    }
}

/// How the times of a run are told.
pub fn clock(outcome: &Outcome) -> Clock {
    clock_of(&outcome.equity)
}

fn clock_of(points: &List<Point>) -> Clock {
    match (points.first(), points.last()) {
        (Some(first), Some(last)) => Clock::of(first.time, last.time),
        _ => Clock::Number,
    }
}

/// The closes of the bars that were done.
fn closes(outcome: &Outcome) -> impl Iterator<Item = f64> + '_ {
    outcome.closes.iter().take(outcome.equity.len())
}

/// The equity at each of some points.
pub fn equity(points: &List<Point>) -> impl Iterator<Item = f64> + '_ {
    points.iter().map(|point| point.equity)
}

/// The closes, with a mark at each entry and each exit.
fn closes_chart(frame: &Frame, outcome: &Outcome) -> String {
    let mut svg = frame.svg("Closes, entries and exits", &outcome.equity);
    svg.path("series", &frame.line(outcome.equity.len(), closes(outcome)));
    let every = outcome.trades.len().div_ceil(MARKED).max(1);
    let clock = clock(outcome);
    for (number, (trade, [entry, exit])) in outcome.trades.iter().zip(places(outcome)).enumerate().step_by(every) {
        let long = trade.qty > 0.0;
        let name = format!("trade {}: {}", number + 1, if long { "long" } else { "short" });
        let (x, y) = (frame.x(entry), frame.y(trade.entry_price));
        let d = if long { 9.0 } else { -9.0 };
        let outline = format!("M{x:.1},{y:.1}l5,{d}h-10z");
        svg.mark(if long { "long" } else { "short" }, &outline, &format!("{name}, {}", entry_words(&trade, clock)));
        let (x, y) = (frame.x(exit), frame.y(trade.exit_price));
        let class = if trade.pnl > 0.0 { "won" } else { "lost" };
        svg.mark(
            class,
            &format!("M{x:.1},{y:.1}m-5,0l5,-5l5,5l-5,5z"),
            &format!("{name}, {}", exit_words(&trade, clock)),
        );
    }
    svg.done()
}

/// What the marks mean, and whether all trades have one.
pub fn marks(outcome: &Outcome) -> String {
    let every = outcome.trades.len().div_ceil(MARKED);
    let note = match every {
        0 | 1 => String::new(),
        n => format!(" Of {} trades every {n}th is marked.", outcome.trades.len()),
    };
    format!("▲ entry long, ▼ entry short, ◆ exit with a profit, ◇ exit without; each at its price.{note}")
}

fn entry_words(trade: &Trade, clock: Clock) -> String {
    format!("entered at {}, {}", rounded(trade.entry_price), clock.text(trade.entry_time))
}

fn exit_words(trade: &Trade, clock: Clock) -> String {
    let (price, pnl) = (rounded(trade.exit_price), rounded(trade.pnl));
    format!("left at {price} by {}, pnl {pnl}, {}", reason_words(trade.reason), clock.text(trade.exit_time))
}

/// The bars of each trade's entry and exit. A trade has their times; one after another they are looked for from where the trade before
/// was left, so that times which occur twice do no harm.
pub fn places(outcome: &Outcome) -> impl Iterator<Item = [usize; 2]> + '_ {
    let times = |from: usize| (from..).zip(outcome.equity.iter_from(from).map(|point| point.time)).peekable();
    let (mut ahead, mut at) = (times(0), 0);
    let mut from = move |time: i64| {
        while ahead.next_if(|(_, there)| *there != time).is_some() {}
        match ahead.peek() {
            Some((found, _)) => at = *found,
            // It is nowhere behind: what is looked for next begins where this did.
            None => ahead = times(at),
        }
        at
    };
    outcome.trades.iter().map(move |trade| [from(trade.entry_time), from(trade.exit_time)])
}

/// What the capital would be, had it bought at the first close and held, without costs; nothing of it is drawn where one is no number.
fn hold(outcome: &Outcome) -> impl Iterator<Item = f64> + '_ {
    let first = outcome.closes.first().unwrap_or(f64::NAN);
    closes(outcome).map(move |close| outcome.capital * (close / first))
}

/// The values of as many bars as there are pixels to point at.
fn points(left: f64, outcome: &Outcome) -> String {
    let (bars, clock) = (outcome.equity.len(), clock(outcome));
    let most = bars.min((RIGHT - left) as usize).max(1);
    let bar_of = |n: usize| if most < 2 { 0 } else { n * (bars - 1) / (most - 1) };
    let mut points: Vec<[String; 4]> = Vec::with_capacity(most);
    let all = outcome.equity.iter().zip(under(equity(&outcome.equity))).enumerate();
    for (bar, (point, under)) in all {
        if points.len() < most && bar == bar_of(points.len()) {
            let close = outcome.closes.get(bar).map_or(String::new(), rounded);
            let under = format!("{}%", rounded(under));
            points.push([format!("{bar}, {}", clock.text(point.time)), close, rounded(point.equity), under]);
        }
    }
    let data = serde_json::json!({
        "left": left, "right": RIGHT, "width": WIDTH, "names": ["bar", "close", "equity", "drawdown"], "points": points,
    });
    data.to_string().replace('<', "\\u003c")
}

/// The equity at each close, the capital as a broken line, and what buying and holding would have come to, where that is drawn.
fn equity_chart(frame: &Frame, outcome: &Outcome, held: bool) -> String {
    let (bars, points) = (outcome.equity.len(), &outcome.equity);
    let mut svg = frame.svg("Equity over time", points);
    frame.level(&mut svg, "capital", outcome.capital);
    if held && !outcome.closes.is_empty() {
        svg.path("hold", &frame.line(bars, hold(outcome)));
    }
    svg.path("series", &frame.line(bars, equity(points)));
    svg.done()
}

/// How far each equity is under the highest so far, in percent of that, as the metrics reckon it; 0 or below.
fn under(equity: impl Iterator<Item = f64>) -> impl Iterator<Item = f64> {
    let mut peak = f64::NEG_INFINITY;
    equity.map(move |equity| {
        peak = if equity > peak { equity } else { peak };
        if peak > 0.0 {
            -(peak - equity) / peak * 100.0
        } else {
            0.0
        }
    })
}

fn drawdown_chart(frame: &Frame, outcome: &Outcome) -> String {
    let (bars, points) = (outcome.equity.len(), &outcome.equity);
    let mut svg = frame.svg("Drawdown over time, in percent", points);
    let line = frame.line(bars, under(equity(points)));
    if !line.is_empty() {
        let (first, last, zero) = (frame.x(0), frame.x(bars - 1), frame.y(0.0));
        svg.path("under", &format!("M{first:.1},{zero:.1}L{}L{last:.1},{zero:.1}z", line[1..].replace('M', "L")));
    }
    svg.done()
}

#[cfg(test)]
mod tests {
    use super::*;

    #[test]
    fn a_long_line_is_as_wide_as_the_chart() {
        let values = || (0..1_000_000).map(|n| f64::from(n % 7));
        let frame = Frame::new(100.0, 1_000_000, values());
        assert!(frame.line(1_000_000, values()).len() < 40_000);
        assert_eq!(frame.line(3, [1.0, f64::NAN, 2.0].into_iter()).matches('M').count(), 2);
    }
}
