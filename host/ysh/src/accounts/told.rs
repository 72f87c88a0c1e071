//! What became of four accounts, as text and for programs.

use std::io::{self, Write};

use serde::Serialize;

use super::stream::{Ended, Stopped, Streamed};
use crate::columns::{counted, grouped};
use crate::run::{json as run_json, text as run_text};
use crate::show::Clock;

pub fn text(streamed: &Streamed) -> String {
    let slots = if streamed.slots.is_empty() { "none".to_owned() } else { streamed.slots.join(", ") };
    let mut text =
        format!("stream   {} of {}; slots: {slots}\n", counted(streamed.bars, "bar", "bars"), streamed.bars_file);
    for (number, ended) in streamed.accounts.iter().enumerate() {
        text.push_str(&format!("account  {} {}: {}\n", number + 1, ended.outcome.file, how(ended)));
    }
    for (number, ended) in streamed.accounts.iter().enumerate() {
        text.push_str(&format!("\naccount {}\n{}", number + 1, run_text::text(&ended.outcome)));
    }
    text
}

/// Whether an account ran to the end, or where it stopped and why.
pub fn how(ended: &Ended) -> String {
    let Some(Stopped { refusal, bar, time }) = ended.stopped else { return "ran to the end".to_owned() };
    let points = &ended.outcome.equity;
    let clock = match (points.first(), points.last()) {
        (Some(first), Some(last)) => Clock::of(first.time, last.time),
        _ => time.map_or(Clock::Number, |time| Clock::of(time, time)),
    };
    let time = time.map_or(String::new(), |time| format!(", {}", clock.text(time)));
    format!("stopped at bar {}{time}: {refusal:#}", grouped(bar))
}

#[derive(Serialize)]
struct Document<'a> {
    bars_file: &'a str,
    bars: u64,
    slots: &'a [String],
    accounts: Vec<AccountJson<'a>>,
}

#[derive(Serialize)]
struct AccountJson<'a> {
    stopped: Option<StoppedJson>,
    /// As `ysh run --json` writes it.
    run: run_json::Document<'a>,
}

#[derive(Serialize)]
struct StoppedJson {
    bar: u64,
    time: Option<i64>,
    refused: [u32; 2],
    text: String,
}

pub fn json(streamed: &Streamed, out: &mut dyn Write) -> io::Result<()> {
    let document = Document {
        bars_file: &streamed.bars_file,
        bars: streamed.bars,
        slots: &streamed.slots,
        accounts: streamed.accounts.iter().map(account).collect(),
    };
    serde_json::to_writer(&mut *out, &document)?;
    out.write_all(b"\n")
}

fn account(ended: &Ended) -> AccountJson<'_> {
    let stopped = |Stopped { refusal, bar, time }: Stopped| StoppedJson {
        bar,
        time,
        refused: [refusal.number, refusal.place],
        text: refusal.meaning().to_owned(),
    };
    AccountJson { stopped: ended.stopped.map(stopped), run: run_json::document(&ended.outcome) }
}
