//! `driver bench`: the C interface against the Rust original, on the same bars in one run, as tables in markdown.

mod accounts;
mod day;
mod differences;
mod dump;
mod engine;
mod figures;
mod looks;
mod moving;
mod parts;
mod rules;
pub mod setup;
mod stretch;
mod timing;
mod totals;

/// A table, under the name that picks it.
type Part = (&'static str, fn());

const PARTS: [Part; 13] = [
    ("bar", engine::bench),
    ("slots", engine::by_slots),
    ("day", day::bench),
    ("moving", moving::bench),
    ("dump", dump::bench),
    ("parts", parts::bench),
    ("rules", rules::bench),
    ("looks", looks::bench),
    ("figures", figures::bench),
    ("stretch", stretch::bench),
    ("totals", totals::bench),
    ("differences", differences::bench),
    ("accounts", accounts::bench),
];

/// Measures everything, or the part of that name; whether there is one.
pub fn bench(name: Option<&str>) -> bool {
    let picked = |part: &&Part| name.is_none_or(|name| name == part.0);
    let parts: Vec<&Part> = PARTS.iter().filter(picked).collect();
    parts.iter().for_each(|part| part.1());
    !parts.is_empty()
}
