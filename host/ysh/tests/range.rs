//! `ysh range` from outside: against reading every close, by bars and by times, one stretch and many.

mod common;

use std::fs;
use std::path::Path;

use common::{folder, ysh, Dice};
use serde_json::Value;

fn put(folder: &Path, name: &str, text: impl AsRef<[u8]>) -> String {
    let path = folder.join(name);
    fs::write(&path, text).unwrap();
    path.to_str().unwrap().to_owned()
}

/// Closes that repeat, a minute apart, from 2026-01-05 on.
const START: i64 = 1_767_571_200_000;

fn bars(closes: &[f64]) -> String {
    let line = |(n, close): (usize, &f64)| format!("{},1,1,1,{close},1\n", START + 60_000 * n as i64);
    "time,open,high,low,close,volume\n".to_owned() + &closes.iter().enumerate().map(line).collect::<String>()
}

fn closes(count: usize) -> Vec<f64> {
    let mut dice = Dice(5);
    (0..count).map(|_| dice.below(400) as f64 / 8.0).collect()
}

#[test]
fn stretches_are_what_reading_every_close_gives() {
    let folder = folder("range-many");
    let closes = closes(1500);
    let file = put(&folder, "b.csv", bars(&closes));
    let mut dice = Dice(6);
    let stretches: Vec<[usize; 2]> = (0..300)
        .map(|_| {
            let mut two = [dice.below(1500), dice.below(1500)];
            two.sort_unstable();
            two
        })
        .chain([[0, 1499], [7, 7], [64, 127]])
        .collect();
    let text: String = stretches.iter().map(|[from, to]| format!("{to},bar:{from}\n")).collect();
    let list = put(&folder, "list.csv", format!("to,from\n{text}"));
    let (status, out, err) = ysh(&["range", &file, "--repeat", &list, "--json"]);
    assert_eq!((status, err.lines().count()), (0, 1), "{err}");
    assert!(err.contains("303 stretches in ") && err.contains(" µs each"), "{err}");
    let json: Value = serde_json::from_str(&out).unwrap();
    for ([from, to], found) in stretches.iter().zip(json["stretches"].as_array().unwrap()) {
        let best = |better: fn(&f64, &f64) -> bool| {
            (*from..=*to).reduce(|best, bar| if better(&closes[bar], &closes[best]) { bar } else { best }).unwrap()
        };
        let (high, low) = (best(|a, b| a > b), best(|a, b| a < b));
        assert_eq!((&found["from"], &found["to"]), (&(*from).into(), &(*to).into()));
        assert_eq!((&found["high"], &found["high_bar"]), (&closes[high].into(), &high.into()));
        assert_eq!((&found["low"], &found["low_bar"]), (&closes[low].into(), &low.into()));
        assert_eq!(found["low_time"], START + 60_000 * low as i64);
        let (read, blocks) = (found["closes_read"].as_u64().unwrap(), found["blocks_read"].as_u64().unwrap());
        assert!(read <= 126 && read + 64 * blocks == (to + 1 - from) as u64);
    }
    let (_, out, _) = ysh(&["range", &file, "--repeat", &list]);
    assert!(out.contains("read     303 stretches; of one at most "), "{out}");
}

#[test]
fn one_stretch_in_words() {
    let folder = folder("range-one");
    let file = put(&folder, "b.csv", bars(&[3.0, 5.0, 1.0, 5.0, 1.0, 2.0]));
    let asked = |more: &[&str]| ysh(&[&["range", &file], more].concat());
    let (status, out, err) = asked(&["--from", "1", "--to", "4"]);
    assert_eq!((status, err.as_str()), (0, ""));
    for line in [
        "stretch  4 bars: bar 1, 2026-01-05 00:01 to bar 4, 2026-01-05 00:04",
        "high     5 at bar 1, 2026-01-05 00:01",
        "low      1 at bar 2, 2026-01-05 00:02",
        "read     4 closes and 0 blocks of 64 closes",
    ] {
        assert!(out.lines().any(|there| there == line), "{line} is not in {out}");
    }
    // By times: between two bars, and outside all of them.
    let at = |ms: i64| format!("time:{}", START + ms);
    for (from, to, stretch) in [
        (at(59_000), at(240_001), "4 bars: bar 1,"),
        (at(60_000), at(240_000), "4 bars: bar 1,"),
        (at(-5), at(10_000_000), "6 bars: bar 0,"),
        (at(300_000), at(300_000), "1 bar: bar 5,"),
    ] {
        let out = asked(&["--from", &from, "--to", &to]).1;
        assert!(out.contains(&format!("stretch  {stretch}")), "{from} {to}: {out}");
    }
    assert!(asked(&[]).1.contains("stretch  6 bars: bar 0,"));
    for (from, to) in
        [("4", "1"), ("bar:0", "bar:6"), ("bar:9", "bar:9"), (&at(1)[..], &at(2)[..]), (&at(-9)[..], &at(-8)[..])]
    {
        let (status, out, err) = asked(&["--from", from, "--to", to]);
        assert_eq!((status, out.as_str(), err.lines().count()), (1, "", 1), "{from} {to}: {err}");
        assert!(err.contains("b.csv: refused 18 at 0"), "{err}");
    }
}

#[test]
fn what_is_wrong_is_told() {
    let folder = folder("range-bad");
    let good = put(&folder, "b.csv", bars(&[3.0, 5.0]));
    let bad = put(&folder, "nan.csv", bars(&[3.0, f64::NAN]));
    let list = |text: &str| put(&folder, "list.csv", text);
    for (file, text, status, part) in [
        (&bad, "from,to\n0,0\n", 1, "nan.csv: line 3, column 5 (close): NaN is not finite: refused 11 at 1"),
        (&good, "from\n0\n", 2, "list.csv: line 1: no column is called \"to\""),
        (&good, "from,to\n0,1\nnoon,1\n", 2, "list.csv: line 3, column 1 (from): \"noon\""),
        (&good, "from,to\n0,1\n1,0\n", 1, "refused 18 at 0"),
    ] {
        let (found, out, err) = ysh(&["range", file, "--repeat", &list(text)]);
        assert_eq!((found, out.as_str(), err.lines().count()), (status, "", 1), "{err}");
        assert!(err.contains(part), "{part:?} is not in {err}");
    }
    let (status, out, err) = ysh(&["range", &good, "--repeat", &list("from,to\n,\n0,\n,bar:0\n")]);
    assert!(status == 0 && out.contains("read     3 stretches"), "{out}{err}");
    assert_eq!(ysh(&["range", &put(&folder, "none.csv", bars(&[]))]).0, 1);
}
