//! The drawings of many runs: return against drawdown, and a small equity curve a run.

use super::row::Row;
use crate::axis::Axis;
use crate::run::json::Exact;
use crate::show::rounded;
use crate::svg::{Anchor, Svg, LETTER};

const WIDTH: f64 = 1000.0;
const TOP: f64 = 14.0;
const BOTTOM: f64 = 334.0;
const RIGHT: f64 = WIDTH - 40.0;

/// Return upwards, drawdown to the right, a point a run; none where no run has both.
pub fn scatter(runs: &[Row]) -> Option<String> {
    let point = |row: &Row| Some((row.ran()?.max_drawdown.0, row.ran()?.return_pct.0));
    let finite = |row: &'_ Row| point(row).filter(|(x, y)| x.is_finite() && y.is_finite());
    let points: Vec<(&Row, f64, f64)> =
        runs.iter().filter_map(|row| finite(row).map(|(drawdown, gain)| (row, drawdown, gain))).collect();
    if points.is_empty() {
        return None;
    }
    let across = Axis::of(points.iter().map(|point| point.1).chain([0.0]));
    let up = Axis::of(points.iter().map(|point| point.2).chain([0.0]));
    let widest = up.ticks().into_iter().map(|tick| rounded(tick).chars().count()).max().unwrap_or(1);
    let left = 16.0 + LETTER * widest as f64;
    let x = |drawdown: f64| left + (RIGHT - left) * across.share(drawdown);
    let y = |gain: f64| BOTTOM - (BOTTOM - TOP) * up.share(gain);
    let mut svg = Svg::new(WIDTH, BOTTOM + 42.0, "Return against drawdown, a point a run");
    for tick in up.ticks() {
        svg.line("grid", (left, y(tick)), (RIGHT, y(tick)));
        svg.text("axis", (left - 6.0, y(tick) + 4.0), Anchor::End, &rounded(tick));
    }
    for tick in across.ticks() {
        svg.line("grid", (x(tick), TOP), (x(tick), BOTTOM));
        let half = LETTER * rounded(tick).chars().count() as f64 / 2.0;
        svg.text("axis", (x(tick).clamp(half, WIDTH - half), BOTTOM + 16.0), Anchor::Middle, &rounded(tick));
    }
    svg.line("capital", (left, y(0.0)), (RIGHT, y(0.0)));
    svg.text("axis", ((left + RIGHT) / 2.0, BOTTOM + 36.0), Anchor::Middle, "greatest drawdown, percent");
    for (row, drawdown, gain) in points {
        let dot = format!("M{:.1},{:.1}m-4,0a4,4 0 1,0 8,0a4,4 0 1,0 -8,0z", x(drawdown), y(gain));
        let title =
            format!("{} over {}: return {}%, drawdown {}%", row.file, row.bars_file, rounded(gain), rounded(drawdown));
        svg.mark(if gain < 0.0 { "dot lost" } else { "dot" }, &dot, &title);
    }
    Some(svg.done())
}

/// The equity of a run, as large as a line of a table.
pub fn small(curve: &[Exact]) -> String {
    const SIZE: (f64, f64) = (90.0, 22.0);
    let axis = Axis::of(curve.iter().map(|point| point.0));
    let last = curve.len().saturating_sub(1).max(1) as f64;
    let (mut outline, mut broken) = (String::new(), true);
    for (n, Exact(equity)) in curve.iter().enumerate() {
        if !equity.is_finite() {
            broken = true;
            continue;
        }
        let (x, y) = (1.0 + (SIZE.0 - 2.0) * n as f64 / last, SIZE.1 - 1.0 - (SIZE.1 - 2.0) * axis.share(*equity));
        outline.push_str(&format!("{}{x:.1},{y:.1}", if broken { 'M' } else { 'L' }));
        broken = false;
    }
    format!(r#"<svg class="small" viewBox="0 0 {} {}"><path class="series" d="{outline}"/></svg>"#, SIZE.0, SIZE.1)
}

#[cfg(test)]
mod tests {
    use super::*;

    #[test]
    fn a_curve_stays_in_its_line() {
        let drawn = small(&[Exact(1.0), Exact(f64::NAN), Exact(3.0), Exact(2.0)]);
        assert!(drawn.contains("M1.0,21.0M59.7,1.0L89.0,11.0"), "{drawn}");
        assert!(small(&[]).contains("d=\"\"") && scatter(&[]).is_none());
    }
}
