//! `ysh why` from outside: what it says at a bar, and that it never contradicts `ysh run`. Where there is no chromium its page is not opened.

mod common;

use std::fs;
use std::path::Path;

use common::browser::{chromium, whole};
use common::{folder, ysh};

/// Long where the fast value crosses the slow one while the close is no lower than two bars before, short where it is missing; out after two bars
/// or on a fall.
const RULES: &str = r#"{
  "symbol": "x", "timeframe": "1m", "indicators": {"fast": {"type": "Ema"}, "slow": {"type": "Ema"}},
  "entry": {"all": [{"cross_above": ["fast", "slow"]}, {"ge": [{"price": "close"}, {"prev": [{"price": "close"}, 2]}]}]},
  "exit": {"any": [{"falling": [{"price": "close"}, 1]}, {"bars_since_entry": {"ge": 2}}]},
  "short_entry": {"not": {"gt": ["fast", 0]}}, "short_exit": {"in_position": true},
  "sizing": {"type": "fixed_qty", "qty": 1}, "warmup": 2
}"#;

/// Time, close, fast and slow of each bar; a cross at bars 4 and 11, `fast` absent at bar 8.
const BARS: [(i64, f64, &str, &str); 14] = [
    (0, 100.0, "1", "2"),
    (60, 101.0, "1", "2"),
    (120, 102.0, "1", "2"),
    (180, 101.0, "1", "2"),
    (240, 103.0, "3", "2"),
    (300, 104.0, "3", "2"),
    (360, 105.0, "3", "2"),
    (420, 106.0, "3", "2"),
    (480, 107.0, "", "2"),
    (540, 108.0, "1", "2"),
    (600, 109.0, "1", "2"),
    (660, 107.5, "3", "2"),
    (720, 106.0, "1", "2"),
    (780, 108.0, "1", "2"),
];

fn files(folder: &Path) -> [String; 2] {
    let mut text = "time,open,high,low,close,volume,fast,slow\n".to_owned();
    for (time, close, fast, slow) in BARS {
        text.push_str(&format!("{time},{close},{},{},{close},10,{fast},{slow}\n", close + 1.0, close - 1.0));
    }
    let at = |name: &str| folder.join(name).to_str().unwrap().to_owned();
    let [rules, bars] = [at("rules.json"), at("bars.csv")];
    fs::write(&rules, RULES).unwrap();
    fs::write(&bars, text).unwrap();
    [rules, bars]
}

fn why(files: &[String; 2], more: &[&str]) -> String {
    let (status, out, err) = ysh(&[&["why", &files[0], &files[1]], more].concat());
    assert_eq!((status, err.as_str()), (0, ""), "{more:?}");
    out
}

#[test]
fn a_chain_in_words() {
    let files = files(&folder("why-words"));
    for (at, parts) in [
        ("1", vec!["at bar 1, 60\n", "position  none\n", "asked     nothing: the first 2 bars are warmup\n"]),
        (
            "3",
            vec![
                "asked     entry, then short entry\n",
                "entry says no\n  #0 all of 2: no, as one of them says no, the first that does being\n",
                "    #1 fast crosses above slow: no, fast is 1 and slow is 2; a bar before they were 1 and 2\n",
                "short entry says no\n",
                "no, as it turns around what says yes\n",
                "fast > 0: yes, fast is 1, 0\n",
            ],
        ),
        (
            "4",
            vec![
                "asked     entry\n",
                "entry says yes\n  #0 all of 2: yes, each of them says yes\n",
                "    #1 fast crosses above slow: yes, fast is 3 and slow is 2; a bar before they were 1 and 2\n",
                "    #4 close >= close 2 bars before: yes, close is 103, close 2 bars before is 102\n",
            ],
        ),
        (
            "6",
            vec![
                "position  long 1, entered at bar 5\n",
                "exit says no\n",
                "any of 2: no, none of them says yes\n",
                "    #9 close falling over 1 bar: no, close is 105, and 1 bar before it was 104\n",
                "    #11 bars since entry >= 2: no, the entry was 1 bar ago\n",
            ],
        ),
        ("7", vec!["exit says yes\n", "bars since entry >= 2: yes, the entry was 2 bars ago\n"]),
        (
            "8",
            vec![
                "short entry says yes\n",
                "fast > 0: no, as fast has no value at this bar\n",
                "fast crosses above slow: no, as fast has no value at this bar\n",
            ],
        ),
        ("9", vec!["position  short 1", "short exit says yes\n", "in a position: yes, there is a position\n"]),
        ("11", vec!["close >= close 2 bars before: no, close is 107.5, close 2 bars before is 108\n"]),
    ] {
        let out = why(&files, &["--at", at]);
        for part in parts {
            assert!(out.contains(part), "bar {at}: {part:?} is not in\n{out}");
        }
    }
    let out = why(&files, &["--at", "0", "--tree", "entry"]);
    assert!(
        out.contains("fast crosses above slow: no, a cross needs a bar before this one, and this is the first\n"),
        "{out}"
    );
    let out = why(&files, &["--at", "0", "--tree", "exit"]);
    assert!(out.contains("any of 2: no, none of them says yes\n"), "{out}");
    assert!(out.contains("close falling over 1 bar: no, it looks 1 bar back, and there is 1 bar so far\n"), "{out}");
    assert_eq!(why(&files, &["--at", "time:480"]), why(&files, &["--at", "bar:8"]));
    assert_eq!(why(&files, &["--at", "480"]), why(&files, &["--at", "8"]));
}

#[test]
fn a_bar_that_is_not_there() {
    let files = files(&folder("why-none"));
    for (at, part) in [
        ("bar:14", "bars.csv: --at: there is no bar 14; it has 14 bars, the first of them bar 0"),
        ("999", "--at: no bar has the time 999, and it has not so many bars either (14)"),
        ("noon", "'noon' for '--at <BAR|TIME>': a bar's number from 0, or its time, was expected"),
    ] {
        let (status, out, err) = ysh(&["why", &files[0], &files[1], "--at", at]);
        assert_eq!((status, out.as_str(), err.lines().count()), (2, "", 1), "{err}");
        assert!(err.contains(part), "{err}");
    }
}

/// The same bars with dates, from 2026-01-05 00:00 on, a minute apart; some of them changed.
fn dated(folder: &Path, change: impl Fn(usize, i64) -> i64) -> [String; 2] {
    let files = files(folder);
    let text = fs::read_to_string(&files[1]).unwrap();
    let mut lines = text.lines();
    let mut new = format!("{}\n", lines.next().unwrap());
    for (n, line) in lines.enumerate() {
        let time = change(n, 1_767_571_200_000 + 60_000 * n as i64);
        new.push_str(&format!("{time},{}\n", line.split_once(',').unwrap().1));
    }
    fs::write(&files[1], new).unwrap();
    files
}

#[test]
fn times_as_people_write_them() {
    let files = dated(&folder("why-times"), |_, time| time);
    let bar = why(&files, &["--at", "bar:4"]);
    assert!(bar.contains("at bar 4, 2026-01-05 00:04\nposition"), "{bar}");
    for at in
        ["00:04", "00:04:00", "2026-01-05 00:04", "2026-01-05T00:04Z", "2026-01-05T02:04:00+02:00", "1767571440000"]
    {
        assert_eq!(why(&files, &["--at", at]), bar, "{at}");
    }
    let said = "time      no bar is at 2026-01-05 00:04:30; the last before it is at 2026-01-05 00:04\n";
    for at in ["00:04:30", "2026-01-05 00:04:30", "2026-01-04T23:04:30-01:00", "time:1767571470000"] {
        let out = why(&files, &["--at", at]);
        assert!(out.contains(said) && out.replace(said, "") == bar, "{at}: {out}");
    }
    let late = why(&files, &["--at", "23:00"]);
    assert!(
        late.contains("at bar 13, ") && late.contains("no bar is at 2026-01-05 23:00; the last before it"),
        "{late}"
    );
    let (status, _, err) = ysh(&["why", &files[0], &files[1], "--at", "2026-01-04 23:00"]);
    assert!(
        status == 2 && err.contains("no bar is at 2026-01-04 23:00 or before it; the first is at 2026-01-05 00:00"),
        "{err}"
    );
}

#[test]
fn a_time_of_day_is_asked_for_once() {
    // A session over midnight has each time of day once; three days have 00:04 more than once.
    let night = dated(&folder("why-night"), |_, time| time - 300_000);
    assert!(why(&night, &["--at", "00:01"]).contains("at bar 6, 2026-01-05 00:01\n"));
    assert!(why(&night, &["--at", "23:56"]).contains("at bar 1, 2026-01-04 23:56\n"));
    let days = dated(&folder("why-days"), |n, time| time + 86_400_000 * (n / 5) as i64);
    let (status, _, err) = ysh(&["why", &days[0], &days[1], "--at", "00:07"]);
    assert!(status == 2 && err.contains("have 00:07:00 more than once; a date was expected with it"), "{err}");
    let plain = files(&folder("why-numbers"));
    let (status, _, err) = ysh(&["why", &plain[0], &plain[1], "--at", "00:07"]);
    assert!(status == 2 && err.contains("its times, 0 to 780, are no seconds and no milliseconds since 1970"), "{err}");
}

#[test]
fn a_time_that_stands_twice_is_said_and_both_are_shown() {
    let files = dated(&folder("why-twice"), |n, time| if n == 5 { time - 60_000 } else { time });
    let out = why(&files, &["--at", "00:04"]);
    assert_eq!(out.matches("time      2 bars have the time 2026-01-05 00:04\n").count(), 2, "{out}");
    assert!(out.contains("at bar 4, ") && out.contains("at bar 5, "), "{out}");
    assert!(
        out.starts_with("WARNING  ") && out.contains("1 time that repeats the one above it; the first in line 7\n"),
        "{out}"
    );
    let (status, _, err) = ysh(&["why", &files[0], &files[1], "--at", "00:04", "--strict"]);
    assert!(status == 2 && err.contains("line 7: 1 time that repeats the one above it (--strict)"), "{err}");
}

#[test]
fn the_same_for_programs() {
    let files = dated(&folder("why-json"), |_, time| time);
    let (status, out, err) = ysh(&["why", &files[0], &files[1], "--at", "00:08:30", "--json"]);
    assert_eq!((status, err.as_str()), (0, ""));
    let json: serde_json::Value = serde_json::from_str(&out).unwrap();
    assert!(json["said"].as_str().unwrap().starts_with("no bar is at 2026-01-05 00:08:30"), "{out}");
    let bar = &json["bars"][0];
    assert_eq!(
        (&bar["bar"], &bar["time"], &bar["position"]["side"]),
        (&8.into(), &1_767_571_680_000i64.into(), &"none".into())
    );
    assert_eq!(bar["asked"], serde_json::json!(["entry", "short entry"]));
    let entry = &bar["rules"][0]["chain"][1];
    assert_eq!(
        (&entry["node"], &entry["by"], &entry["missing_node"], &entry["bars_back"]),
        (&1.into(), &"missing".into(), &2.into(), &0.into())
    );
    let short = &bar["rules"][1];
    assert_eq!(
        (&short["tree"], &short["answer"], &short["chain"][1]["by"]),
        (&"short entry".into(), &true.into(), &"missing".into())
    );
    let (_, out, _) = ysh(&["why", &files[0], &files[1], "--at", "00:04", "--json"]);
    let json: serde_json::Value = serde_json::from_str(&out).unwrap();
    let chain = &json["bars"][0]["rules"][0]["chain"];
    assert_eq!(
        (&chain[0]["by"], &chain[1]["level"], &chain[2]["values"]),
        (&"below".into(), &1.into(), &serde_json::json!([103.0, 102.0]))
    );
}

/// Every entry and every exit by signal of a run was decided a bar before, and `why` says so there.
#[test]
fn a_run_is_never_contradicted() {
    let folder = folder("why-run");
    let root = Path::new(env!("CARGO_MANIFEST_DIR")).join("../../examples");
    let at = |name: &str| root.join(name).to_str().unwrap().to_owned();
    let trades = folder.join("trades.csv");
    let mut asked = 0;
    for rules in ["strategies/crossover.json", "strategies/breakout.json", "strategies/hour.json"] {
        let files = [at(rules), at("bars/day.csv")];
        assert_eq!(ysh(&["run", &files[0], &files[1], "--trades", trades.to_str().unwrap()]).0, 0);
        let text = fs::read_to_string(&trades).unwrap();
        for cells in text.lines().skip(1).map(|line| line.split(',').collect::<Vec<_>>()) {
            let before = |time: &str| format!("time:{}", time.parse::<i64>().unwrap() - 60_000);
            let out = why(&files, &["--at", &before(cells[0])]);
            assert!(out.contains("asked     entry\n") && out.contains("\nentry says yes\n"), "{cells:?}: {out}");
            if cells[7] == "signal" {
                let out = why(&files, &["--at", &before(cells[1])]);
                assert!(out.contains("asked     exit\n") && out.contains("\nexit says yes\n"), "{cells:?}: {out}");
            }
            asked += 1;
        }
    }
    assert!(asked > 200, "{asked}");
}

#[test]
fn the_rule_is_drawn_and_nothing_is_cut_off() {
    let folder = folder("why-page");
    let files = files(&folder);
    let html = folder.join("why.html").to_str().unwrap().to_owned();
    why(&files, &["--at", "8", "--html", &html]);
    let page = fs::read_to_string(&html).unwrap();
    for part in [
        "<li class=\"on\"><span><i>1</i> crosses above <b class=\"no\">no</b></span>",
        "fast <b class=\"none\">missing</b>",
        "<i>5</i> close <b>107</b>",
        "2 bars before <b>105</b>",
        "<i>7</i> close <b>105</b>",
    ] {
        assert!(page.contains(part), "{part:?} is not in {page}");
    }
    let Some(program) = chromium() else { return };
    whole(&program, &folder, &page);
    let sum = (0..26).fold("1".to_owned(), |sum, n| format!("{{\"add\": [{{\"prev\": [\"fast\", {n}]}}, {sum}]}}"));
    let deep = RULES
        .replace("\"fast\", \"slow\"", &format!("{sum}, \"slow\""))
        .replace("\"slow\"", &format!("\"{}\"", "slow".repeat(40)));
    fs::write(&files[0], deep).unwrap();
    let bars = fs::read_to_string(&files[1]).unwrap().replace("slow", &"slow".repeat(40));
    fs::write(&files[1], bars).unwrap();
    why(&files, &["--at", "3", "--html", &html]);
    whole(&program, &folder, &fs::read_to_string(&html).unwrap());
}
