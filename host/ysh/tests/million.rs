//! A million bars take little longer than reading the file. Reader and engine work side by side, so on an idle machine the time is that
//! of the slower of the two; what is asserted is the processor's time, which other work on the machine does not change (built for
//! release; otherwise the times are only told).

mod common;

use std::fs;
use std::process::Command;
use std::time::{Duration, Instant};

use common::{folder, ysh, Dice};

const BARS: usize = 1_000_000;

const STRATEGY: &str = r#"{
  "symbol": "x", "timeframe": "1m", "indicators": {"fast": {"type": "Ema"}, "slow": {"type": "Ema"}},
  "entry": {"cross_above": ["fast", "slow"]}, "exit": {"lt": [{"price": "close"}, {"prev": [{"price": "close"}, 13]}]},
  "sizing": {"type": "fixed_fraction", "fraction": 0.5}, "costs": {"taker_bps": 5}, "warmup": 26
}"#;

fn bars() -> String {
    let mut dice = Dice(3);
    let (mut price, mut fast, mut slow) = (1000.0, 1000.0, 1000.0);
    let mut text = "time,open,high,low,close,volume,fast,slow\n".to_owned();
    for n in 0..BARS {
        let open = price;
        price += (dice.below(2001) as f64 - 1000.0) / 1000.0;
        fast += (price - fast) / 6.0;
        slow += (price - slow) / 13.0;
        let (high, low) = (f64::max(open, price) + 0.25, f64::min(open, price) - 0.25);
        let time = 1_700_000_000_000 + 60_000 * n as u64;
        text.push_str(&format!(
            "{time},{open:.3},{high:.3},{low:.3},{price:.3},{},{fast:.4},{slow:.4}\n",
            dice.below(900)
        ));
    }
    text
}

/// The file read by the same crate, every cell a number, and nothing done with them.
fn read(path: &std::path::Path) -> f64 {
    let mut reader = csv::Reader::from_path(path).unwrap();
    let mut line = csv::ByteRecord::new();
    let mut sum = 0.0;
    while reader.read_byte_record(&mut line).unwrap() {
        let cells = line.iter().map(|cell| std::str::from_utf8(cell).unwrap().parse::<f64>().unwrap());
        sum += cells.sum::<f64>();
    }
    sum
}

/// The processor's time of this process so far, as Linux tells it: hundredths of a second in user and in kernel mode.
fn processor() -> f64 {
    let stat = fs::read_to_string("/proc/self/stat").unwrap_or_default();
    let after_name = stat.rsplit(')').next().unwrap_or_default();
    let times = after_name.split_whitespace().skip(11).take(2);
    times.filter_map(|word| word.parse::<f64>().ok()).sum::<f64>() / 100.0
}

/// The least time of three, and the least of the processor's.
fn best<R>(mut work: impl FnMut() -> R) -> (Duration, f64) {
    let times: Vec<(Duration, f64)> = (0..3)
        .map(|_| {
            let (began, before) = (Instant::now(), processor());
            work();
            (began.elapsed(), processor() - before)
        })
        .collect();
    let least = times.iter().map(|(_, cpu)| *cpu).fold(f64::INFINITY, f64::min);
    (times.iter().map(|(took, _)| *took).min().unwrap(), least)
}

#[test]
fn a_million_bars() {
    let folder = folder("million");
    let (rules, path) = (folder.join("rules.json"), folder.join("b.csv"));
    fs::write(&rules, STRATEGY).unwrap();
    fs::write(&path, bars()).unwrap();
    let reading = best(|| read(&path));
    let running = best(|| {
        let (status, out, err) = ysh(&["run", rules.to_str().unwrap(), path.to_str().unwrap()]);
        assert_eq!((status, err.as_str()), (0, ""));
        assert!(out.contains("1,000,000 bars of "), "{out}");
    });
    eprintln!("a million bars: reading the file {:?} ({} s of the processor)", reading.0, reading.1);
    eprintln!("a million bars: ysh run {:?} ({} s of the processor)", running.0, running.1);
    assert!(cfg!(debug_assertions) || running.1 < 2.5 * reading.1 + 0.1, "{running:?} against {reading:?}");
    bar_is_shown(rules.to_str().unwrap(), path.to_str().unwrap());
}

/// On a terminal a run of more than a second shows how far it has come, and ends. Where there is no `script` to make a terminal that is said.
fn bar_is_shown(rules: &str, bars: &str) {
    let asked = format!("{} run {rules} {bars} > /dev/null", env!("CARGO_BIN_EXE_ysh"));
    let began = Instant::now();
    let ran = Command::new("timeout").args(["300", "script", "-qec", &asked, "/dev/null"]).output();
    let Some(ran) = ran.ok().filter(|ran| ran.status.code() != Some(127)) else {
        eprintln!("no timeout or script here: the bar was not looked at");
        return;
    };
    let shown = String::from_utf8_lossy(&ran.stdout);
    assert!(ran.status.success(), "{shown}");
    assert!(began.elapsed().as_secs() < 2 || shown.contains(" MiB, "), "{shown}");
}
