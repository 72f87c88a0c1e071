//! A file that is ten times as long takes no more memory: what a run leaves behind stands in temporary files. Where there is no /proc, as
//! Linux has it, nothing is looked at.

mod common;

use std::fs::{self, File};
use std::io::{BufWriter, Write};
use std::path::Path;
use std::process::{Command, Stdio};
use std::time::Duration;

use common::{folder, ysh, Dice};

const STRATEGY: &str = r#"{
  "symbol": "x", "timeframe": "1m", "indicators": {"fast": {"type": "Ema"}},
  "entry": {"cross_above": [{"price": "close"}, "fast"]}, "exit": {"cross_below": [{"price": "close"}, "fast"]},
  "sizing": {"type": "fixed_qty", "qty": 1}, "costs": {"taker_bps": 1}, "warmup": 2
}"#;

/// Bars that have a trade every few bars, a file of 30 MB and one of 300 MB; a tenth of that where the build is no release.
const BARS: [u64; 2] = if cfg!(debug_assertions) { [60_000, 600_000] } else { [600_000, 6_000_000] };

/// What two runs may differ by, of memory that is no file's, in kilobytes: less than two bytes a bar. How much of a file is in memory besides is the
/// system's to say; it is told.
const APART: u64 = 8 * 1024;

fn bars(path: &Path, count: u64) {
    let mut out = BufWriter::new(File::create(path).unwrap());
    let mut dice = Dice(9);
    let mut price = 1000;
    out.write_all(b"time,open,high,low,close,volume,fast\n").unwrap();
    for n in 0..count {
        let next = 900 + dice.below(200);
        writeln!(out, "{},{price},1200,800,{next},10,{}.5", 1_700_000_000_000 + 60_000 * n, 980 + n % 40).unwrap();
        price = next;
    }
    out.flush().unwrap();
}

/// The most of each that a run had, in kilobytes, as it was looked at again and again.
#[derive(Clone, Copy, Debug, Default)]
struct Memory {
    anonymous: u64,
    resident: u64,
}

fn looked(process: u32) -> Option<Memory> {
    let status = fs::read_to_string(format!("/proc/{process}/status")).ok()?;
    let of = |name: &str| {
        let line = status.lines().find_map(|line| line.strip_prefix(name)?.strip_prefix(':'))?;
        line.trim().strip_suffix(" kB")?.parse::<u64>().ok()
    };
    Some(Memory { anonymous: of("RssAnon")?, resident: of("VmHWM")? })
}

fn most(arguments: &[&str]) -> Option<Memory> {
    let mut command = Command::new(env!("CARGO_BIN_EXE_ysh"));
    let mut running = command.args(arguments).stdout(Stdio::null()).spawn().unwrap();
    let mut most = Memory::default();
    let status = loop {
        if let Some(now) = looked(running.id()) {
            most.anonymous = most.anonymous.max(now.anonymous);
            most.resident = most.resident.max(now.resident);
        }
        match running.try_wait().unwrap() {
            Some(status) => break status,
            None => std::thread::sleep(Duration::from_millis(2)),
        }
    };
    assert!(status.success(), "{arguments:?}");
    (most.resident > 0).then_some(most)
}

#[test]
fn ten_times_the_bars_take_the_same_memory() {
    let folder = folder("memory");
    let rules = folder.join("rules.json");
    fs::write(&rules, STRATEGY).unwrap();
    let files = BARS.map(|count| {
        let path = folder.join(format!("{count}.csv"));
        bars(&path, count);
        path
    });
    let rules = rules.to_str().unwrap();
    let equity = folder.join("equity.csv");
    for more in [&[][..], &["--json"], &["--equity", equity.to_str().unwrap()]] {
        let run = |path: &Path| most(&[&["run", rules, path.to_str().unwrap()], more].concat());
        let (Some(short), Some(long)) = (run(&files[0]), run(&files[1])) else {
            eprintln!("no /proc here: nothing was looked at");
            return;
        };
        eprintln!("ysh run {more:?}: {short:?} over {} bars, {long:?} over {}", BARS[0], BARS[1]);
        assert!(long.anonymous <= short.anonymous + APART, "{more:?}: {short:?}, {long:?}");
    }
    let range = |path: &Path| most(&["range", path.to_str().unwrap(), "--from", "bar:0"]);
    if let (Some(short), Some(long)) = (range(&files[0]), range(&files[1])) {
        assert!(long.anonymous <= short.anonymous + APART, "range: {short:?}, {long:?}");
    }
    no_folder(rules, &files[1]);
    files.iter().for_each(|path| fs::remove_file(path).unwrap());
}

/// Without a folder for temporary files a long run ends with a line that says so, and a short one needs none.
fn no_folder(rules: &str, long: &Path) {
    let run = |path: &str| {
        let mut command = Command::new(env!("CARGO_BIN_EXE_ysh"));
        let ran = command.args(["run", rules, path]).env("TMPDIR", "/nowhere/at/all").output().unwrap();
        (ran.status.code(), String::from_utf8_lossy(&ran.stderr).into_owned())
    };
    let (status, said) = run(long.to_str().unwrap());
    assert_eq!(status, Some(2), "{said}");
    let wanted = "ysh: /nowhere/at/all: a temporary file for what the run leaves behind cannot be written: ";
    assert!(said.starts_with(wanted) && said.ends_with("; TMPDIR names another folder\n"), "{said}");
    let short = long.with_file_name("short.csv");
    bars(&short, 1000);
    assert_eq!(run(short.to_str().unwrap()), (Some(0), String::new()));
    assert_eq!(ysh(&["run", rules, short.to_str().unwrap()]).0, 0);
}
