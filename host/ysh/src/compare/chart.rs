//! Both curves, and what lies between them.

use yshturpa::Point;

use super::Compared;
use crate::lists::List;
use crate::run::charts::{equity, Frame};

/// The two drawings, their bars one below the other; the second where there is something between the curves.
pub struct Charts {
    pub curves: String,
    pub between: Option<String>,
}

impl Charts {
    /// Over the bars of the longer run; none where neither has any.
    pub fn of(compared: &Compared) -> Option<Charts> {
        let longer = longer(compared)?;
        let [a, b] = compared.both(|side| &side.equity);
        let differ = apart(compared).any(|x| x != 0.0);
        let mut frames = [
            Frame::new(280.0, longer.len(), equity(a).chain(equity(b))),
            Frame::new(150.0, longer.len(), apart(compared).chain([0.0])),
        ];
        Frame::align(&mut frames);
        let curves = curves(&frames[0], longer, compared);
        let between = differ.then(|| between(&frames[1], longer, compared));
        Some(Charts { curves, between })
    }
}

/// Both equities, and a line where they part.
fn curves(frame: &Frame, longer: &List<Point>, compared: &Compared) -> String {
    let mut svg = frame.svg("Equity of both runs over time", longer);
    for (class, points) in ["series a", "series b"].into_iter().zip(compared.both(|side| &side.equity)) {
        svg.path(class, &frame.line(points.len(), equity(points)));
    }
    compared.parts_at().into_iter().for_each(|bar| frame.upright(&mut svg, "parts", bar));
    svg.done()
}

/// The equity of the second run less that of the first, at the bars that both have.
fn between(frame: &Frame, longer: &List<Point>, compared: &Compared) -> String {
    let mut svg = frame.svg("Equity of b less that of a, over time", longer);
    frame.level(&mut svg, "capital", 0.0);
    let none = std::iter::repeat(f64::NAN);
    svg.path("series", &frame.line(longer.len(), apart(compared).chain(none)));
    compared.parts_at().into_iter().for_each(|bar| frame.upright(&mut svg, "parts", bar));
    svg.done()
}

fn apart(compared: &Compared) -> impl Iterator<Item = f64> + '_ {
    let [a, b] = compared.both(|side| &side.equity);
    equity(a).zip(equity(b)).map(|(a, b)| b - a)
}

/// The points of the run that has more of them; none where neither has any.
fn longer(compared: &Compared) -> Option<&List<Point>> {
    let [a, b] = compared.both(|side| &side.equity);
    let longer = if a.len() < b.len() { b } else { a };
    (!longer.is_empty()).then_some(longer)
}
