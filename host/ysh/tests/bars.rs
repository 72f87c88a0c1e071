//! Files of bars in other forms: dates for times, other names and delimiters, packed, from standard input; and what looks wrong in them.

mod common;

use std::fs;
use std::io::Write;
use std::path::Path;
use std::process::{Command, Stdio};

use common::{folder, ysh};

fn example(name: &str) -> String {
    Path::new(env!("CARGO_MANIFEST_DIR")).join("../../examples").join(name).to_str().unwrap().to_owned()
}

fn put(folder: &Path, name: &str, bytes: impl AsRef<[u8]>) -> String {
    let path = folder.join(name);
    fs::write(&path, bytes).unwrap();
    path.to_str().unwrap().to_owned()
}

/// What a run over a file comes to, without the file's name.
fn run(bars: &str, more: &[&str]) -> serde_json::Value {
    let rules = example("strategies/crossover.json");
    let (status, out, err) = ysh(&[&["run", &rules, bars, "--json"], more].concat());
    assert_eq!((status, err.as_str()), (0, ""), "{more:?}");
    without_name(&out)
}

fn without_name(out: &str) -> serde_json::Value {
    let mut json: serde_json::Value = serde_json::from_str(out).unwrap();
    json["bars_file"] = "".into();
    json
}

#[test]
fn one_run_in_every_form() {
    let folder = folder("bars-forms");
    let day = example("bars/day.csv");
    let text = fs::read_to_string(&day).unwrap();
    let plain = run(&day, &[]);
    let iso = |form: &dyn Fn(i64) -> String| {
        let mut lines = text.lines();
        let mut new = format!("{}\n", lines.next().unwrap());
        for line in lines {
            let (time, rest) = line.split_once(',').unwrap();
            new.push_str(&format!("{},{rest}\n", form(time.parse().unwrap())));
        }
        new
    };
    let clock = |time: i64| {
        let minute = (time - 1_767_571_200_000) / 60_000;
        (minute / 60, minute % 60)
    };
    let zulu = put(
        &folder,
        "zulu.csv",
        iso(&|time| {
            let (hour, minute) = clock(time);
            format!("2026-01-05T{hour:02}:{minute:02}:00Z")
        }),
    );
    let bare = put(
        &folder,
        "bare.csv",
        iso(&|time| {
            let (hour, minute) = clock(time);
            format!("2026-01-05 {hour:02}:{minute:02}")
        }),
    );
    assert_eq!((run(&zulu, &[]), run(&bare, &[])), (plain.clone(), plain.clone()));
    let named = text.replacen("time,open,high", "Date,Open,High", 1);
    let named = put(&folder, "named.csv", named.replace(',', ";"));
    let form = ["--delimiter", ";", "--columns", "Date=time,Open=open,High=high"];
    assert_eq!(run(&named, &form), plain);
    let tab = put(&folder, "tab.csv", text.replace(',', "\t"));
    assert_eq!(run(&tab, &["--delimiter", "tab"]), plain);
    let mut gzip = flate2::write::GzEncoder::new(Vec::new(), flate2::Compression::default());
    gzip.write_all(text.as_bytes()).unwrap();
    let gzip = gzip.finish().unwrap();
    // Two members, one after the other, are one file.
    let (first, second) = text.split_at(text.len() / 2);
    let mut members = Vec::new();
    for part in [first, second] {
        let mut member = flate2::write::GzEncoder::new(Vec::new(), flate2::Compression::fast());
        member.write_all(part.as_bytes()).unwrap();
        members.extend(member.finish().unwrap());
    }
    let zstd = zstd::stream::encode_all(text.as_bytes(), 3).unwrap();
    for (name, bytes) in [("day.csv.gz", &gzip), ("two.csv.gz", &members), ("day.csv.zst", &zstd)] {
        assert_eq!(run(&put(&folder, name, bytes), &[]), plain, "{name}");
    }
    let rules = example("strategies/crossover.json");
    for (name, bytes) in
        [("cut.csv.gz", &gzip[..gzip.len() / 2]), ("cut.csv.zst", &zstd[..zstd.len() / 2]), ("no.csv.gz", b"time,open")]
    {
        let (status, out, err) = ysh(&["run", &rules, &put(&folder, name, bytes)]);
        assert_eq!((status, out.as_str(), err.lines().count()), (2, "", 1), "{name}: {err}");
        assert!(err.contains(&format!("{name}: cannot be read: ")), "{err}");
    }
}

/// The program over standard input.
fn piped(arguments: &[&str], input: &[u8]) -> (String, String) {
    let mut child = Command::new(env!("CARGO_BIN_EXE_ysh"))
        .args(arguments)
        .stdin(Stdio::piped())
        .stdout(Stdio::piped())
        .stderr(Stdio::piped())
        .spawn()
        .unwrap();
    let mut into = child.stdin.take().unwrap();
    let bytes = input.to_vec();
    let writer = std::thread::spawn(move || into.write_all(&bytes));
    let done = child.wait_with_output().unwrap();
    let _ = writer.join().unwrap();
    (String::from_utf8(done.stdout).unwrap(), String::from_utf8(done.stderr).unwrap())
}

#[test]
fn standard_input_is_a_file_too() {
    let (rules, day) = (example("strategies/crossover.json"), example("bars/day.csv"));
    let text = fs::read(&day).unwrap();
    let (out, err) = piped(&["run", &rules, "-", "--json"], &text);
    assert_eq!((without_name(&out), err.as_str()), (run(&day, &[]), ""));
    // A time is looked for first, so this one is read twice.
    let (out, err) = piped(&["why", &rules, "-", "--at", "10:31"], &text);
    assert_eq!((out, err), (ysh(&["why", &rules, &day, "--at", "10:31"]).1, String::new()));
    let (_, err) = piped(&["run", &rules, "-"], b"time,open\n");
    assert!(err.contains("standard input: line 1, column 3: no column is called \"high\""), "{err}");
}

#[test]
fn what_looks_wrong_is_said_once() {
    let folder = folder("bars-odd");
    let rules = example("strategies/crossover.json");
    let lines = [
        "time,open,high,low,close,volume,ema_fast,ema_slow",
        "0,5,6,4,5,1,,",
        "60,5,6,4,5,1,,",
        "120,5,4,6,5,1,,",
        "180,5,6,4,7,1,,",
        "180,5,6,4,3,-1,,",
        "480,5,6,4,5,-2,,",
        "420,5,6,4,5,1,,",
        "480,5,6,4,5,1,,",
        "540,5,6,4,5,1,,",
        "600,5,6,4,5,1,,",
    ];
    let bars = put(&folder, "b.csv", lines.join("\n"));
    let (status, out, err) = ysh(&["run", &rules, &bars]);
    assert_eq!((status, err.as_str()), (0, ""));
    let said: Vec<&str> = out.lines().take_while(|line| line.starts_with("WARNING  ")).collect();
    let wanted = [
        "b.csv: 1 time that is before the one above it; the first in line 8",
        "b.csv: 1 time that repeats the one above it; the first in line 6",
        "b.csv: 1 high below the low; the first in line 4",
        "b.csv: 2 closes outside high and low; the first in line 5",
        "b.csv: 2 volumes below 0; the first in line 6",
        "b.csv: 1 gap between times, which are mostly 60 apart; the first in line 7",
    ];
    assert_eq!(said.len(), wanted.len(), "{out}");
    for (said, wanted) in said.iter().zip(wanted) {
        assert!(said.ends_with(wanted), "{said} is not {wanted}");
    }
    let (status, out, err) = ysh(&["run", &rules, &bars, "--strict"]);
    assert_eq!((status, out.as_str()), (2, ""));
    assert!(err.contains("b.csv: line 8: 1 time that is before the one above it (--strict)"), "{err}");
    let (_, out, err) = ysh(&["run", &rules, &bars, "--json"]);
    let json: serde_json::Value = serde_json::from_str(&out).unwrap();
    assert_eq!((json["bars_doubts"].as_array().unwrap().len(), err.lines().count()), (6, 6));
}

#[test]
fn a_form_that_does_not_fit_is_told() {
    let folder = folder("bars-form");
    let rules = example("strategies/crossover.json");
    let bars = put(&folder, "b.csv", "Time;open\n");
    for (more, part) in [
        (&["--columns", "Date=time"][..], "line 1, column 2: no column is called \"Date\" (--columns)"),
        (&["--delimiter", ";;"], "one character was expected, such as ; or |, or tab"),
        (&["--columns", "Date"], "the name of a column and the one that is meant were expected, such as Open=open"),
    ] {
        let (status, out, err) = ysh(&[&["run", &rules, &bars], more].concat());
        assert_eq!((status, out.as_str(), err.lines().count()), (2, "", 1), "{err}");
        assert!(err.contains(part), "{err}");
    }
    let bars = put(&folder, "c.csv", "time,open,high,low,close,volume,ema_fast\n");
    let (_, _, err) = ysh(&["run", &rules, &bars]);
    let wanted = "no column is called \"ema_slow\", and one was expected; indicators are not worked out here, and the rules read ema_fast, ema_slow";
    assert!(err.contains(wanted), "{err}");
}
