//! How often the trades of a run had which return.

use yshturpa::Trade;

use crate::columns::counted;
use crate::lists::List;
use crate::show::rounded;
use crate::svg::{Anchor, Svg};

const WIDTH: f64 = 1000.0;
const HEIGHT: f64 = 170.0;
const BINS: f64 = 24.0;

/// A round width of the bins, and how many returns are in each, by its number: 0 is the one from 0 up.
fn bins<I: Iterator<Item = f64>>(returns: impl Fn() -> I) -> Option<(f64, i64, Vec<usize>)> {
    let (low, high) = returns().fold((f64::INFINITY, f64::NEG_INFINITY), |(l, h), x| (l.min(x), h.max(x)));
    let rough = ((high - low) / BINS).max(1e-9);
    let scale = 10f64.powf(rough.log10().floor());
    let step = [1.0, 2.0, 5.0, 10.0].into_iter().map(|m| m * scale).find(|step| *step >= rough)?;
    let place = |x: f64| (x / step).floor() as i64;
    let (first, last) = (place(low), place(high));
    let mut counts = vec![0; usize::try_from(last.checked_sub(first)?).ok().filter(|n| *n < 200)? + 1];
    returns().for_each(|x| counts[(place(x) - first) as usize] += 1);
    Some((step, first, counts))
}

/// The drawing; none where there are fewer than two trades with a finite return.
pub fn histogram(trades: &List<Trade>) -> Option<String> {
    let returns = || trades.iter().map(|trade| trade.return_pct).filter(|x| x.is_finite());
    if returns().count() < 2 {
        return None;
    }
    let (step, first, counts) = bins(returns)?;
    let most = *counts.iter().max()?;
    let mut svg = Svg::new(WIDTH, HEIGHT + 30.0, "How often the trades had which return");
    let (left, right, top) = (40.0, WIDTH - 40.0, 16.0);
    let wide = (right - left) / counts.len() as f64;
    for (n, &count) in counts.iter().enumerate() {
        let from = (first + n as i64) as f64 * step;
        let high = (HEIGHT - top) * count as f64 / most as f64;
        let title = format!(
            "{} from {}% to {}%",
            counted(count as u64, "trade", "trades"),
            rounded(from),
            rounded(from + step)
        );
        let class = if from < 0.0 { "loses" } else { "wins" };
        svg.bar(class, (left + wide * n as f64 + 1.0, HEIGHT - high), ((wide - 2.0).max(1.0), high), &title);
    }
    svg.line("grid", (left, HEIGHT), (right, HEIGHT));
    svg.text("axis", (left - 6.0, top + 4.0), Anchor::End, &most.to_string());
    let edges = counts.len() + 1;
    let every = edges.div_ceil(8);
    for edge in (0..edges).step_by(every) {
        let at = (left + wide * edge as f64).clamp(30.0, WIDTH - 30.0);
        svg.text(
            "axis",
            (at, HEIGHT + 18.0),
            Anchor::Middle,
            &format!("{}%", rounded((first + edge as i64) as f64 * step)),
        );
    }
    Some(svg.done())
}

#[cfg(test)]
mod tests {
    use super::*;

    #[test]
    fn every_return_is_in_a_bin_and_0_is_an_edge() {
        let returns = [-3.0, -0.1, 0.0, 0.2, 7.9];
        let bins = |returns: &[f64]| bins(|| returns.iter().copied());
        let (step, first, counts) = bins(&returns).unwrap();
        assert_eq!((step, first, counts.iter().sum::<usize>()), (0.5, -6, 5));
        assert_eq!(counts[(-first) as usize], 2);
        assert_eq!(bins(&[1.0, 1.0]).unwrap().2, [2]);
        assert_eq!(bins(&[-1e300, 1e300]).map(|(_, _, counts)| counts.len() < 200), Some(true));
    }
}
