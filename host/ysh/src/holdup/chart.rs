//! The chart of files against the limit: a bar a file with its name where there are few, the files in order of their times where there
//! are many.

use super::report::{Client, Report};
use super::units::Time;
use crate::columns::counted;
use crate::svg::{Anchor, Svg, LETTER};

/// As many files as have room for a bar with a name, and the letters of a name.
const NAMED: usize = 40;
const MOST_LETTERS: usize = 36;

const WIDTH: f64 = 1000.0;
const ROW: f64 = 24.0;
const TOP: f64 = 34.0;

/// None where no file was answered.
pub fn chart(report: &Report) -> Option<Svg> {
    let mut files: Vec<&Client> = report.clients.iter().collect();
    files.sort_by_key(|client| std::cmp::Reverse(client.alone));
    match files.len() {
        0 => None,
        1..=NAMED => Some(bars(&files, report.given.have)),
        _ => Some(profile(&files, report.given.have)),
    }
}

/// The longest time that the chart has to show, with some room above it.
fn most(files: &[&Client], have: Option<Time>) -> f64 {
    files[0].alone.max(have.unwrap_or_default()).ms().max(1e-6) * 1.06
}

/// Round numbers from 0 up, about six of them.
fn ticks(most: f64) -> Vec<f64> {
    let rough = most / 6.0;
    let scale = 10f64.powf(rough.log10().floor());
    let step = [1.0, 2.0, 5.0, 10.0].into_iter().map(|m| m * scale).find(|step| *step >= rough).unwrap_or(scale);
    (0..).map(|i| f64::from(i) * step).take_while(|tick| *tick <= most).collect()
}

fn tick_text(tick: f64) -> String {
    crate::table::number((tick * 1e6).round() / 1e6)
}

fn class(client: &Client) -> &'static str {
    match &client.fit {
        None => "plain",
        Some(fit) if fit.fits => "fits",
        Some(_) => "over",
    }
}

/// Names on the left, times on the right, between them a bar a file, and the limit as an upright line.
fn bars(files: &[&Client], have: Option<Time>) -> Svg {
    let longest = files.iter().map(|client| client.file.chars().count()).max().unwrap_or(0);
    let left = 24.0 + LETTER * longest.clamp(8, MOST_LETTERS) as f64;
    let right = WIDTH - 40.0 - LETTER * files[0].alone.up().len() as f64;
    let most = most(files, have);
    let x = |ms: f64| left + (right - left) * ms / most;
    let bottom = TOP + ROW * files.len() as f64 + 2.0;
    let mut svg = Svg::new(WIDTH, bottom + 28.0, "Time of each file alone against the limit");
    for tick in ticks(most) {
        svg.line("grid", (x(tick), TOP), (x(tick), bottom));
        svg.text("axis", (x(tick), bottom + 17.0), Anchor::Middle, &tick_text(tick));
    }
    svg.text("axis", (WIDTH - 6.0, bottom + 17.0), Anchor::End, "ms");
    for (place, client) in files.iter().enumerate() {
        let y = TOP + ROW * place as f64;
        let wide = (x(client.alone.ms()) - left).max(1.0);
        svg.text("name", (left - 8.0, y + 16.0), Anchor::End, &shortened(&client.file, MOST_LETTERS));
        svg.bar(class(client), (left, y + 4.0), (wide, ROW - 8.0), &client.file);
        svg.text("value", (WIDTH - 6.0, y + 16.0), Anchor::End, &client.alone.up());
    }
    if let Some(have) = have {
        let at = x(have.ms());
        svg.line("limit", (at, TOP - 6.0), (at, bottom));
        limit_text(&mut svg, at, TOP - 12.0, have);
    }
    svg
}

/// The files side by side, the longest first, and the limit as a level line.
fn profile(files: &[&Client], have: Option<Time>) -> Svg {
    let most = most(files, have);
    let ticks = ticks(most);
    let widest = ticks.iter().map(|tick| tick_text(*tick).len()).max().unwrap_or(0);
    let (left, right, bottom) = (36.0 + LETTER * widest as f64, WIDTH - 16.0, 330.0);
    let y = |ms: f64| bottom - (bottom - TOP) * ms / most;
    let step = (right - left) / files.len() as f64;
    let mut svg =
        Svg::new(WIDTH, bottom + 40.0, "Times of all files, each alone, the longest first, against the limit");
    for tick in ticks {
        svg.line("grid", (left, y(tick)), (right, y(tick)));
        svg.text("axis", (left - 6.0, y(tick) + 4.0), Anchor::End, &format!("{} ms", tick_text(tick)));
    }
    for (place, client) in files.iter().enumerate() {
        let top = y(client.alone.ms());
        let title = format!("{} {} ms", client.file, client.alone.up());
        svg.bar(&format!("{} thin", class(client)), (left + step * place as f64, top), (step, bottom - top), &title);
    }
    let over = files.iter().filter(|client| class(client) == "over").count();
    let all = format!("{}, the longest first", counted(files.len() as u64, "file", "files"));
    let under = have.map_or(all.clone(), |_| format!("{all}; {over} over the limit"));
    svg.text("axis", ((left + right) / 2.0, bottom + 24.0), Anchor::Middle, &under);
    if let Some(have) = have {
        svg.line("limit", (left, y(have.ms())), (right, y(have.ms())));
        limit_text(&mut svg, right - 90.0, y(have.ms()) - 6.0, have);
    }
    svg
}

/// What is there, beside its line and off both edges.
fn limit_text(svg: &mut Svg, x: f64, y: f64, have: Time) {
    let text = format!("there is {have} ms");
    let half = text.len() as f64 * LETTER / 2.0;
    svg.text("limit-text", (x.clamp(half, WIDTH - half), y), Anchor::Middle, &text);
}

/// A name of at most so many letters: the end of it, which tells files of a folder apart.
fn shortened(name: &str, most: usize) -> String {
    let letters = name.chars().count();
    match letters <= most {
        true => name.to_owned(),
        false => format!("…{}", name.chars().skip(letters - most + 1).collect::<String>()),
    }
}

#[cfg(test)]
mod tests {
    use super::*;

    #[test]
    fn ticks_are_round() {
        assert_eq!(ticks(14.0), [0.0, 5.0, 10.0]);
        assert_eq!(ticks(11.66), [0.0, 2.0, 4.0, 6.0, 8.0, 10.0]);
        assert_eq!(tick_text(ticks(0.7)[3]), "0.6");
    }

    #[test]
    fn names_are_cut_at_the_front() {
        assert_eq!(shortened("folder/a.json", 8), "…/a.json");
    }
}
