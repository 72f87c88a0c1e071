//! `ysh accounts` from outside: each of four accounts is what `ysh run` says of its strategy alone, and one that stops, stops alone.

mod common;

use std::fs;
use std::path::{Path, PathBuf};

use common::{folder, ysh};
use serde_json::Value;

fn example(name: &str) -> String {
    let root = fs::canonicalize(Path::new(env!("CARGO_MANIFEST_DIR")).join("../..")).unwrap();
    root.join("examples").join(name).to_str().unwrap().to_owned()
}

fn put(folder: &Path, name: &str, text: impl AsRef<[u8]>) -> String {
    let path = folder.join(name);
    fs::write(&path, text).unwrap();
    path.to_str().unwrap().to_owned()
}

fn at(folder: &Path, name: &str) -> String {
    folder.join(name).to_str().unwrap().to_owned()
}

/// The JSON of each account's run, and how it ended.
fn accounts(files: [&str; 4], bars: &str, more: &[&str]) -> (u8, Vec<(Value, Value)>) {
    let all = [&["accounts"], &files[..], &["--bars", bars, "--json"], more].concat();
    let (status, out, err) = ysh(&all);
    let json: Value = serde_json::from_str(&out).unwrap_or_else(|error| panic!("{error}: {err}"));
    let each = json["accounts"].as_array().unwrap().iter();
    (status, each.map(|one| (one["run"].clone(), one["stopped"].clone())).collect())
}

#[test]
fn each_account_is_the_run_alone() {
    let folder = folder("accounts-alone");
    let bars = example("bars/day.csv");
    let table = at(&folder, "t.rtb");
    // A table keeps its slots where it has them; with strategies around it these are the stream's first.
    assert_eq!(ysh(&["compile", &example("strategies/hour.json"), "-o", &table, "--capital", "500"]).0, 0);
    let files = ["strategies/breakout.json", "strategies/crossover.json", "strategies/hour.json"].map(example);
    let (breakout, crossover, hour) = (&files[0][..], &files[1][..], &files[2][..]);
    for four in [[breakout, crossover, hour, crossover], [crossover, &table, breakout, hour]] {
        let reports = at(&folder, "reports");
        let (status, found) = accounts(four, &bars, &["--reports", &reports]);
        assert_eq!(status, 0);
        let text = ysh(&[&["accounts"], &four[..], &["--bars", &bars]].concat()).1;
        for (number, (file, (run, stopped))) in four.iter().zip(found).enumerate() {
            let html = at(&folder, "alone.html");
            let (_, out, _) = ysh(&["run", file, &bars, "--html", &html]);
            assert!(text.contains(&format!("\naccount {}\n{out}", number + 1)), "{out} is not in {text}");
            assert!(text.contains(&format!("account  {} {file}: ran to the end\n", number + 1)), "{text}");
            let alone: Value = serde_json::from_str(&ysh(&["run", file, &bars, "--json"]).1).unwrap();
            assert_eq!((run, stopped), (alone, Value::Null), "{file}");
            let report = PathBuf::from(&reports).join(format!("account-{}.html", number + 1));
            assert!(fs::read(report).unwrap() == fs::read(html).unwrap(), "{file}");
        }
    }
}

/// One outside the profile never begins, one with lots that cannot be counted stops at its first entry; the others go on.
#[test]
fn one_that_stops_stops_alone() {
    let folder = folder("accounts-stopped");
    let bars = example("bars/day.csv");
    let crossover = example("strategies/crossover.json");
    let text = fs::read_to_string(&crossover).unwrap();
    let levered = put(&folder, "l.json", text.replace("\"stop_loss_pct\": 10", "\"max_leverage\": 2"));
    let short = put(
        &folder,
        "s.json",
        text.replace("\"sizing\"", "\"short_entry\": {\"cross_below\": [\"ema_fast\", \"ema_slow\"]}, \"sizing\""),
    );
    let lots = at(&folder, "lots.rtb");
    assert_eq!(ysh(&["compile", &crossover, "-o", &lots, "--lot", "1e-17"]).0, 0);
    let (status, found) = accounts([&levered, &lots, &crossover, &short], &bars, &[]);
    assert_eq!(status, 1);
    for outside in [0, 3] {
        assert_eq!((&found[outside].1["refused"], &found[outside].1["bar"]), (&serde_json::json!([21, 0]), &0.into()));
        assert_eq!(found[outside].0["bars"], 0);
    }
    // Alone it is refused at the same bar.
    let (_, _, err) = ysh(&["run", &lots, &bars]);
    let bar = found[1].1["bar"].as_u64().unwrap();
    assert_eq!(found[1].1["refused"][0], 16);
    assert!(err.contains(&format!("line {}:", bar + 2)) && err.contains("refused 16"), "{bar}: {err}");
    assert_eq!(found[1].0["bars"], bar);
    let alone: Value = serde_json::from_str(&ysh(&["run", &crossover, &bars, "--json"]).1).unwrap();
    assert_eq!(found[2], (alone, Value::Null));
    let (status, out, err) = ysh(&["accounts", &levered, &lots, &crossover, &short, "--bars", &bars]);
    // Three that stopped or never began, and a note of the short exit.
    assert_eq!((status, err.lines().count()), (1, 4), "{err}");
    assert!(out.contains(&format!("lots.rtb: stopped at bar {bar}, 2026-01-05 ")), "{out}");
    assert!(out.contains("l.json: stopped at bar 0, 2026-01-05 00:00: refused 21 at 0"), "{out}");
}

#[test]
fn a_bar_that_the_stream_refuses_is_in_no_account() {
    let folder = folder("accounts-refused");
    let text = fs::read_to_string(example("bars/day.csv")).unwrap();
    let line = text.lines().nth(700).unwrap();
    let cells: Vec<&str> = line.split(',').collect();
    let mut bad = cells.clone();
    bad[11] = "nan";
    let broken = put(&folder, "b.csv", text.replace(line, &bad.join(",")));
    let left = put(&folder, "left.csv", text.replace(&format!("{line}\n"), ""));
    let files = ["strategies/crossover.json", "strategies/hour.json", "strategies/breakout.json"].map(example);
    let four = [&files[0][..], &files[1], &files[2], &files[0]];
    let (status, out, err) = ysh(&[&["accounts"], &four[..], &["--bars", &broken]].concat());
    assert_eq!((status, out.as_str(), err.lines().count()), (1, "", 1), "{err}");
    assert!(err.contains("b.csv: line 701, column 12 (vwap): NaN is not finite"), "{err}");
    let (status, found) = accounts(four, &broken, &["--on-refusal", "skip"]);
    assert_eq!(status, 1);
    for ((run, stopped), file) in found.iter().zip(four) {
        let alone: Value = serde_json::from_str(&ysh(&["run", file, &left, "--json"]).1).unwrap();
        assert_eq!(
            (&run["equity"], &run["trades"], &run["metrics"]),
            (&alone["equity"], &alone["trades"], &alone["metrics"])
        );
        assert_eq!((&run["refused_bars"], stopped), (&1.into(), &Value::Null));
    }
}

#[test]
fn slots_that_do_not_go_together_are_told() {
    let folder = folder("accounts-slots");
    let bars = example("bars/day.csv");
    let [one, two] = ["one.rtb", "two.rtb"].map(|name| at(&folder, name));
    ysh(&["compile", &example("strategies/hour.json"), "-o", &one]);
    ysh(&["compile", &example("strategies/crossover.json"), "-o", &two]);
    let (status, out, err) = ysh(&["accounts", &one, &two, &one, &one, "--bars", &bars]);
    assert_eq!((status, out.as_str(), err.lines().count()), (2, "", 1), "{err}");
    assert!(err.contains("its slots are ") && err.contains("and the stream's begin with "), "{err}");
    assert_eq!(ysh(&["accounts", &one, &one, &one, "--bars", &bars]).0, 2);
}
