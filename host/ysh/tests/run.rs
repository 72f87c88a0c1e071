//! `ysh run` from outside: what it writes, and what it says of bars that are refused or damaged.

mod common;

use std::fs;
use std::path::Path;

use common::{folder, ysh, STRATEGY};

fn put(folder: &Path, name: &str, text: impl AsRef<[u8]>) -> String {
    let path = folder.join(name);
    fs::write(&path, text).unwrap();
    path.to_str().unwrap().to_owned()
}

/// Bars that rise and fall, with two averages that cross.
fn bars(count: usize) -> String {
    let mut text = "time,open,high,low,close,volume,fast,slow\n".to_owned();
    for n in 0..count {
        let close = 100.0 + ((n % 40) as f64 - 20.0).abs() + n as f64 / 10.0;
        let fast = if n < 3 { String::new() } else { (close - ((n % 40) as f64 - 20.0).signum()).to_string() };
        let cells = [close - 0.5, close + 1.0, close - 1.0, close, 1000.0].map(|x| x.to_string());
        text.push_str(&format!("{},{},{fast},{close}\n", 60_000 * n, cells.join(",")));
    }
    text
}

/// A strategy that enters and leaves often.
fn lively() -> String {
    STRATEGY
        .replace("\"gt\": [{\"price\": \"close\"}, {\"prev\"", "\"ge\": [{\"price\": \"high\"}, {\"prev\"")
        .replace("14]", "2]")
}

#[test]
fn a_run_is_summed_up_and_written() {
    let folder = folder("run-whole");
    let (strategy, bars) = (put(&folder, "s.json", lively()), put(&folder, "b.csv", bars(400)));
    let at = |name: &str| folder.join(name).to_str().unwrap().to_owned();
    let (trades, equity, html) = (at("t.csv"), at("e.csv"), at("p.html"));
    let asked =
        ["run", &strategy, &bars, "--trades", &trades, "--equity", &equity, "--html", &html, "--capital", "5000"];
    let (status, out, err) = ysh(&asked);
    assert_eq!((status, err.as_str()), (0, ""));
    let count = fs::read_to_string(&trades).unwrap().lines().count() - 1;
    assert!(count > 3, "{count} trades");
    for part in ["400 bars of ", "capital  5,000\n", &format!("trades   {count}: "), "Sortino ratio", "profit factor"] {
        assert!(out.contains(part), "{part:?} is not in {out}");
    }
    let equity = fs::read_to_string(&equity).unwrap();
    assert!(equity.starts_with("time,equity\n0,5000\n60000,5000\n") && equity.lines().count() == 401, "{equity}");
    let page = fs::read_to_string(&html).unwrap();
    assert!(page.contains("<td>1</td><td>long</td>") && page.matches("<svg").count() == 4);
    assert!(!page.contains("http") && !page.contains("src=") && !page.contains("@import"));
    let (_, out, _) = ysh(&["run", &strategy, &bars, "--json", "--capital", "5000"]);
    let json: serde_json::Value = serde_json::from_str(&out).unwrap();
    assert_eq!(json["trades"].as_array().unwrap().len(), count);
    assert_eq!((&json["metrics"]["num_trades"], &json["equity"][0][1]), (&count.into(), &5000.0.into()));
}

/// A table with its settings gives what its strategy gives.
#[test]
fn a_table_runs_with_its_settings() {
    let folder = folder("run-table");
    let (strategy, bars) = (put(&folder, "s.json", lively()), put(&folder, "b.csv", bars(200)));
    let table = folder.join("s.rtb").to_str().unwrap().to_owned();
    assert_eq!(ysh(&["compile", &strategy, "-o", &table, "--capital", "777"]).0, 0);
    let strip = |out: String| out.lines().skip(1).map(str::to_owned).collect::<Vec<_>>();
    let of_table = ysh(&["run", &table, &bars]);
    assert_eq!((of_table.0, of_table.2.as_str()), (0, ""));
    assert_eq!(strip(of_table.1), strip(ysh(&["run", &strategy, &bars, "--capital", "777"]).1));
    one_line(&["run", &table, &bars, "--lot", "1"], 2, &["--lot: a table has it in its settings"]);
    fs::remove_file(format!("{table}.settings.json")).unwrap();
    one_line(&["run", &table, &bars], 2, &["a table runs with its settings, and there is no"]);
}

/// Nothing on standard output, and one line, with these parts, on standard error.
fn one_line(arguments: &[&str], status: u8, parts: &[&str]) {
    let (found, out, err) = ysh(arguments);
    assert_eq!((found, out.as_str()), (status, ""), "{arguments:?}: {err}");
    assert_eq!(err.lines().count(), 1, "{err}");
    for part in parts {
        assert!(err.contains(part), "{part:?} is not in {err}");
    }
}

#[test]
fn a_refused_bar_stops_the_run_or_is_left_out() {
    let folder = folder("run-refused");
    let strategy = put(&folder, "s.json", lively());
    let text = bars(60);
    let bar = |n: usize| text.lines().nth(n + 1).unwrap();
    let broken = text
        .replace(bar(30), &bar(30).replacen(",1000,", ",inf,", 1))
        .replace(bar(40), &format!("{},nan", bar(40).rsplit_once(',').unwrap().0));
    let file = put(&folder, "b.csv", &broken);
    one_line(
        &["run", &strategy, &file],
        1,
        &["b.csv: line 32, column 6 (volume): inf is not finite: refused 11 at 30"],
    );
    let (status, out, err) = ysh(&["run", &strategy, &file, "--on-refusal", "skip"]);
    assert_eq!(status, 1);
    let lines: Vec<&str> = err.lines().collect();
    assert_eq!(lines.len(), 2, "{err}");
    assert!(
        lines[1].contains("line 42, column 8 (slow): NaN is not finite; an absent value is an empty cell"),
        "{err}"
    );
    assert!(out.contains("58 bars of") && out.contains("2 bars refused and left out"), "{out}");
    // The run is the one over the bars that are left.
    let left: String = broken
        .lines()
        .filter(|line| !line.contains("inf") && !line.contains("nan"))
        .map(|l| format!("{l}\n"))
        .collect();
    let left = put(&folder, "left.csv", left);
    let metrics = |file: &str, more: &[&str]| {
        let (_, out, _) = ysh(&[&["run", &strategy, file, "--json"], more].concat());
        let json: serde_json::Value = serde_json::from_str(&out).unwrap();
        (json["metrics"].clone(), json["equity"].clone(), json["trades"].clone())
    };
    assert_eq!(metrics(&file, &["--on-refusal", "skip"]), metrics(&left, &[]));
}

#[test]
fn damage_is_told_by_line_and_column() {
    let folder = folder("run-damage");
    let strategy = put(&folder, "s.json", STRATEGY);
    let text = bars(5);
    let lines: Vec<&str> = text.lines().collect();
    let with = |from: &str, to: &str| text.replacen(from, to, 1);
    for (name, damaged, part) in [
        ("empty", String::new(), "line 1, column 1: the file is empty"),
        ("blank", "\n\n".to_owned(), "line 1, column 1: the file is empty"),
        ("column", with("low,", ""), "line 1, column 8: no column is called \"low\""),
        ("slot", with("slow", "slwo"), "line 1, column 9: no column is called \"slow\""),
        ("twice", with("slow", "fast"), "line 1, column 8: a second column is called \"fast\""),
        (
            "half",
            with("volume,", "volume,mark,"),
            "column 7: funding is mark and rate, and no column is called \"rate\"",
        ),
        ("text", with("60000,", "noon,"), "line 3, column 1 (time): \"noon\" is no whole number of 64 bits"),
        ("price", with(",1000,", ",1 000,"), "line 2, column 6 (volume): \"1 000\" is no number"),
        ("absent", with(",1000,", ",,"), "line 2, column 6 (volume): \"\" is no number"),
        ("many", text.replace(lines[2], &format!("{},", lines[2])), "line 3, column 9: a cell too many: 9 cells"),
        ("cut", text[..text.len() - 15].to_owned(), "line 6, column"),
        ("windows", text.replace('\n', "\r\n\r\n").replacen("60000,", "x,", 1), "line 5, column 1 (time)"),
        ("quote", with(",1000,", ",\"1000,"), "line 2, column"),
        ("binary", "\u{0}\u{1}".to_owned(), "line 1, column 2: no column is called \"time\""),
    ] {
        let file = put(&folder, &format!("{name}.csv"), damaged);
        one_line(&["run", &strategy, &file], 2, &[&format!("{name}.csv: "), part]);
    }
    one_line(&["run", &strategy, "none.csv"], 2, &["none.csv: cannot be read: No such file", "a file of bars (CSV)"]);
    let marked = put(&folder, "marked.csv", format!("\u{feff}{text}"));
    assert_eq!(ysh(&["run", &strategy, &marked]).0, 0);
}

#[test]
fn settings_that_are_refused_are_the_rules_files() {
    let folder = folder("run-settings");
    let table = folder.join("s.rtb").to_str().unwrap().to_owned();
    let (strategy, bars) = (put(&folder, "s.json", STRATEGY), put(&folder, "b.csv", bars(5)));
    assert_eq!(ysh(&["compile", &strategy, "-o", &table]).0, 0);
    let beside = format!("{table}.settings.json");
    let text = fs::read_to_string(&beside).unwrap();
    fs::write(&beside, text.replace("\"lot\": 0.0", "\"lot\": -1.0")).unwrap();
    one_line(&["run", &table, &bars], 1, &["s.rtb: refused 12 at 24 (setting 24, lot)"]);
}

/// A lot so small that an entry is 2^53 of them: the order is due again, so every later bar is refused too.
#[test]
fn too_many_lots_are_told_with_their_lines() {
    let folder = folder("run-lots");
    let (strategy, bars) = (put(&folder, "s.json", lively()), put(&folder, "b.csv", bars(120)));
    let (status, out, err) = ysh(&["run", &strategy, &bars, "--lot", "1e-17", "--on-refusal", "skip"]);
    assert_eq!(status, 1);
    assert!(err.contains(": an entry is due, and its quantity is 2^53 lots or more: refused 16 at "), "{err}");
    assert!(err.lines().count() == 21 && err.contains("bars more were refused and left out"), "{err}");
    assert!(out.contains("trades   none"), "{out}");
}

#[test]
fn funding_is_charged_where_it_is_supplied() {
    let folder = folder("run-funding");
    let strategy =
        put(&folder, "s.json", lively().replace("\"warmup\": 26", "\"warmup\": 26, \"costs\": {\"funding\": true}"));
    let plain = bars(400);
    let mut lines = plain.lines();
    let mut text = format!("{},mark,rate\n", lines.next().unwrap());
    lines
        .enumerate()
        .for_each(|(n, line)| text.push_str(&format!("{line},{}\n", if n % 3 == 0 { "100,0.01" } else { "," })));
    let (status, out, _) = ysh(&["run", &strategy, &put(&folder, "f.csv", &text)]);
    assert!(status == 0 && !out.contains("funding 0\n"), "{out}");
    let (_, _, err) = ysh(&["run", &strategy, &put(&folder, "p.csv", &plain)]);
    assert!(
        err.contains("note: funding is on, and") && err.contains("has no mark and rate: nothing is charged"),
        "{err}"
    );
    let half = put(&folder, "h.csv", text.replacen("100,0.01", "100,", 1));
    one_line(&["run", &strategy, &half], 2, &["line 2, column 10 (rate): it is empty beside the other"]);
}
