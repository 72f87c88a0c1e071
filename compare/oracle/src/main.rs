//! `oracle KIND [--rust] < cases > answers`: the answers of the Rust original, line by line.
//! `oracle gen NAME SEED > cases`: a list of cases.

use std::io::{self, BufRead, Write};

use oracle::answers::{leaf_line, metrics_line, root_line, rule_line, Runs};
use oracle::lists;
use oracle::Reading;

const USAGE: &str = "usage: oracle root|leaf|metrics|rule|run [--rust] < cases > answers
       oracle gen NAME SEED > cases";

fn usage() -> ! {
    eprintln!("{USAGE}");
    std::process::exit(2)
}

fn main() -> io::Result<()> {
    let args: Vec<String> = std::env::args().skip(1).collect();
    let args: Vec<&str> = args.iter().map(String::as_str).collect();
    match args[..] {
        ["gen", name, seed] => generate(name, seed.parse().unwrap_or_else(|_| usage())),
        [kind] => answer(kind, Reading::Paper),
        [kind, "--rust"] => answer(kind, Reading::Rust),
        _ => usage(),
    }
}

fn generate(name: &str, seed: u64) -> io::Result<()> {
    let mut out = io::BufWriter::new(io::stdout().lock());
    for line in lists::list(name, seed).unwrap_or_else(|| usage()) {
        writeln!(out, "{line}")?;
    }
    out.flush()
}

fn answer(kind: &str, reading: Reading) -> io::Result<()> {
    let mut runs = Runs::new(reading);
    let mut out = io::BufWriter::new(io::stdout().lock());
    for line in io::stdin().lock().lines() {
        let line = line?;
        let answer = match kind {
            "root" => Some(root_line(&line)),
            "leaf" => Some(leaf_line(&line)),
            "metrics" => Some(metrics_line(&line, reading)),
            "rule" => Some(rule_line(&line)),
            "run" => runs.line(&line),
            _ => usage(),
        };
        if let Some(text) = answer {
            writeln!(out, "{text}")?;
        }
    }
    out.flush()
}
