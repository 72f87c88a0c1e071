//! The proved engine, through its C interface, beside the Rust original in one process. See compare/README.md.

mod accounts;
mod bench;
mod case;
mod cases;
mod compare;
mod differences;
mod extremes;
mod figures;
mod guard;
mod images;
mod model;
mod ours;
#[cfg(feature = "stack")]
mod painted;
mod progress;
mod questions;
mod records;
#[cfg(feature = "stack")]
mod stack;
mod stretches;
mod theirs;
mod totals;
mod view;

use std::process::ExitCode;

const USAGE: &str = "usage: driver compare SEED RUNS | guard SEED CALLS | root SEED COUNT | metrics SEED COUNT
       driver extremes SEED COUNT | images SEED COUNT | stretches SEED COUNT | totals SEED COUNT | differences SEED COUNT
       driver accounts SEED STREAMS | questions SEED COUNT
       driver replay < runs | bench [PART]
       driver stack SEED RUNS (with the feature `stack`: compare/stack)";

fn usage() -> ! {
    eprintln!("{USAGE}");
    std::process::exit(2)
}

fn number(text: &str) -> u64 {
    text.replace('_', "").parse().unwrap_or_else(|_| usage())
}

fn main() -> ExitCode {
    let args: Vec<String> = std::env::args().skip(1).collect();
    let args: Vec<&str> = args.iter().map(String::as_str).collect();
    let agree = match args[..] {
        ["compare", seed, runs] => compare::compare(number(seed), number(runs)),
        ["guard", seed, count] => guard::guard(number(seed), number(count)),
        ["extremes", seed, count] => extremes::extremes(number(seed), number(count)),
        ["images", seed, count] => images::images(number(seed), number(count)),
        ["stretches", seed, count] => stretches::stretches(number(seed), number(count)),
        #[cfg(feature = "stack")]
        ["stack", seed, runs] => stack::stack(number(seed), number(runs)),
        ["bench"] => bench::bench(None),
        ["bench", part] => bench::bench(Some(part)),
        ["replay"] => compare::replay().expect("standard input can be read"),
        ["root", seed, count] => figures::roots(number(seed), number(count)),
        ["metrics", seed, count] => figures::metrics(number(seed), number(count)),
        ["accounts", seed, count] => accounts::accounts(number(seed), number(count)),
        ["differences", seed, count] => differences::differences(number(seed), number(count)),
        ["questions", seed, count] => questions::questions(number(seed), number(count)),
        ["totals", seed, count] => totals::totals(number(seed), number(count)),
        _ => usage(),
    };
    ExitCode::from(u8::from(!agree))
}
