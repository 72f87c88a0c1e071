//! `ysh trials` and `ysh totals join` from outside: the same answer for every number of threads, order of files and split into parts;
//! exact totals; refused runs; what was interrupted.

mod common;

use std::fs;
use std::path::{Path, PathBuf};

use common::browser::{browse, chromium, whole};
use common::{folder, ysh, STRATEGY};
use serde_json::Value;

fn put(folder: &Path, name: &str, text: impl AsRef<[u8]>) -> String {
    let path = folder.join(name);
    fs::write(&path, text).unwrap();
    path.to_str().unwrap().to_owned()
}

/// Bars that rise and fall, with two averages that cross, in prices whose sums depend on their order.
fn bars(count: usize, step: f64) -> String {
    let mut text = "time,open,high,low,close,volume,fast,slow\n".to_owned();
    for n in 0..count {
        let close = 100.0 + ((n % 40) as f64 - 20.0).abs() * step + n as f64 / 7.0;
        // The averages cross at a high in one cycle, and at a low in another.
        let side = if n / 40 % 3 == 2 { 1.0 } else { -1.0 };
        let fast = if n < 3 { String::new() } else { (close + side * ((n % 40) as f64 - 20.0).signum()).to_string() };
        let cells = [close - 0.5, close + 1.0, close - 1.0, close, 1000.0].map(|x| x.to_string());
        text.push_str(&format!("{},{},{fast},{close}\n", 60_000 * n, cells.join(",")));
    }
    text
}

/// A strategy that enters and leaves often, by a look of so many bars.
fn strategy(back: usize) -> String {
    STRATEGY
        .replace("\"gt\": [{\"price\": \"close\"}, {\"prev\"", "\"ge\": [{\"price\": \"volume\"}, {\"prev\"")
        .replace("14]", &format!("{back}]"))
        .replace(
            "{\"not\": {\"rising\": [{\"price\": \"close\"}, 3]}}",
            &format!("{{\"bars_since_entry\": {{\"ge\": {}}}}}", 3 * back),
        )
        .replace("\"qty\": 1", &format!("\"qty\": {}.1", back + 1))
}

/// Five strategies, of which the fourth is none, and three files of bars, of which the second has a bar that is refused.
struct Files {
    folder: PathBuf,
    strategies: Vec<String>,
    bars: Vec<String>,
}

impl Files {
    fn new(name: &str) -> Files {
        let folder = folder(name);
        let mut strategies: Vec<String> = (1..5).map(|n| put(&folder, &format!("s{n}.json"), strategy(n))).collect();
        strategies.insert(3, put(&folder, "s3b.json", "{}"));
        let broken = bars(300, 1.5).replacen(",1000,", ",inf,", 1);
        let texts = [bars(400, 1.0), broken, bars(250, 0.3)];
        let bars = texts.iter().enumerate().map(|(n, text)| put(&folder, &format!("b{n}.csv"), text)).collect();
        Files { folder, strategies, bars }
    }

    fn at(&self, name: &str) -> String {
        self.folder.join(name).to_str().unwrap().to_owned()
    }

    /// `ysh trials` over all of them, with more arguments.
    fn trials(&self, more: &[&str]) -> (u8, String, String) {
        let files: Vec<&str> = self.strategies.iter().map(String::as_str).collect();
        let bars: Vec<&str> = self.bars.iter().map(String::as_str).collect();
        ysh(&[&["trials"], &files[..], &["--bars"], &bars, more].concat())
    }

    fn json(&self, more: &[&str]) -> Value {
        let (_, out, err) = self.trials(&[&["--json"], more].concat());
        serde_json::from_str(&out).unwrap_or_else(|error| panic!("{error}: {err}"))
    }
}

fn read(path: &str) -> String {
    fs::read_to_string(path).unwrap()
}

#[test]
fn a_row_is_the_run_by_itself() {
    let files = Files::new("trials-rows");
    let all = files.json(&[]);
    let rows = all["runs"].as_array().unwrap();
    assert_eq!(rows.len(), 15);
    let names: Vec<(&str, &str)> =
        rows.iter().map(|row| (row["file"].as_str().unwrap(), row["bars_file"].as_str().unwrap())).collect();
    let mut sorted = names.clone();
    sorted.sort_unstable();
    assert_eq!(names, sorted);
    for row in rows {
        let (file, bars) = (row["file"].as_str().unwrap(), row["bars_file"].as_str().unwrap());
        let (status, out, err) = ysh(&["run", file, bars, "--json"]);
        let Some(ran) = row["outcome"].get("ran") else {
            let refused = &row["outcome"]["refused"];
            assert_eq!(status, if refused["refused"].is_null() { 2 } else { 1 });
            assert!(err.contains(refused["text"].as_str().unwrap()), "{err}");
            continue;
        };
        let alone: Value = serde_json::from_str(&out).unwrap();
        assert_eq!((&ran["bars"], &ran["trades"]), (&alone["bars"], &alone["metrics"]["num_trades"]));
        for name in ["pnl", "return_pct", "sharpe", "max_drawdown"] {
            assert_eq!(ran[name], alone["metrics"][name], "{name}");
        }
        let worst = alone["trades"].as_array().unwrap().iter().map(|trade| {
            let of = |name: &str| trade[name].as_f64().unwrap();
            -(of("worst") - of("entry_price")) / of("entry_price") * 100.0
        });
        assert_eq!(ran["worst_pct"].as_f64().unwrap(), worst.fold(0.0, f64::max));
        assert_eq!(ran["curve"].as_array().unwrap().last(), alone["equity"].as_array().unwrap().last().map(|p| &p[1]));
    }
    assert_eq!(all["totals"]["refused_runs"], 7);
}

/// The sum of floats to its last digit: in units of 2^-80, with digits made one by one.
fn exactly(floats: impl Iterator<Item = f64>) -> String {
    const UNIT: u32 = 80;
    let sum: i128 = floats.map(|x| (x * 2f64.powi(UNIT as i32)) as i128).sum();
    let (whole, mut part) = (sum.unsigned_abs() >> UNIT, sum.unsigned_abs() & ((1 << UNIT) - 1));
    let mut text = format!("{}{whole}", if sum < 0 { "-" } else { "" });
    if part > 0 {
        text.push('.');
    }
    while part > 0 {
        part *= 10;
        text.push_str(&(part >> UNIT).to_string());
        part &= (1 << UNIT) - 1;
    }
    text
}

#[test]
fn the_totals_are_exact() {
    let files = Files::new("trials-exact");
    let all = files.json(&["--on-refusal", "skip"]);
    let mut pnl: Vec<f64> = Vec::new();
    let mut signals = 0;
    for (file, bars) in files.strategies.iter().flat_map(|file| files.bars.iter().map(move |bars| (file, bars))) {
        let (status, out, _) = ysh(&["run", file, bars, "--json", "--on-refusal", "skip"]);
        if status == 2 {
            continue;
        }
        let alone: Value = serde_json::from_str(&out).unwrap();
        for trade in alone["trades"].as_array().unwrap() {
            pnl.push(trade["pnl"].as_f64().unwrap());
            signals += u64::from(trade["reason"] == "signal");
        }
    }
    let totals = &all["totals"];
    let wins = pnl.iter().filter(|x| **x > 0.0).count();
    assert!(wins > 10 && pnl.len() - wins > 10, "{wins} of {}", pnl.len());
    assert_eq!((&totals["trades"], &totals["refused_runs"]), (&pnl.len().into(), &3.into()));
    assert_eq!(totals["exact"]["left_by"]["signal"], signals);
    assert_eq!(totals["exact"]["wins"], wins);
    let exact = exactly(pnl.iter().copied());
    assert_eq!(totals["exact"]["exact_pnl"], exact.as_str());
    assert_eq!(totals["pnl"].as_f64().unwrap(), exact.parse::<f64>().unwrap());
    // Floats, one after another, come to something else in one order at least.
    let forth: f64 = pnl.iter().sum();
    let back: f64 = pnl.iter().rev().sum();
    assert!(forth != back || exactly([forth].into_iter()) != exact);
}

/// Everything that is written of the runs: text, JSON, CSV, page, totals.
fn everything(files: &Files, name: &str, ask: impl Fn(&[&str]) -> (u8, String, String)) -> [String; 5] {
    let [csv, html, totals] = ["csv", "html", "totals"].map(|end| files.at(&format!("{name}.{end}")));
    let (status, text, err) = ask(&["--csv", &csv, "--html", &html, "--totals", &totals]);
    assert_eq!(status, 2, "{err}");
    let (_, json, _) = ask(&["--json"]);
    [text, json, read(&csv), read(&html), read(&totals)]
}

#[test]
fn threads_order_and_parts_make_no_difference() {
    let files = Files::new("trials-same");
    let one = everything(&files, "one", |more| files.trials(&[&["--threads", "1"], more].concat()));
    assert_eq!(one[1], one[4]);
    for threads in ["2", "5"] {
        let many = everything(&files, "many", |more| files.trials(&[&["--threads", threads], more].concat()));
        assert!(many == one, "{threads} threads");
    }
    let turned = Files {
        folder: files.folder.clone(),
        strategies: files.strategies.iter().rev().cloned().collect(),
        bars: [1, 2, 0].map(|n| files.bars[n].clone()).to_vec(),
    };
    assert!(everything(&turned, "turned", |more| turned.trials(more)) == one);
    for of in [2, 3, 4, 20] {
        let parts: Vec<String> = (1..=of).map(|part| files.at(&format!("part-{part}-{of}.json"))).collect();
        for (part, path) in parts.iter().enumerate() {
            let which = format!("{}/{of}", part + 1);
            assert!(files.trials(&["--part", &which, "--totals", path]).0 != 3);
        }
        let backwards: Vec<&str> = parts.iter().rev().map(String::as_str).collect();
        let join = |more: &[&str]| ysh(&[&["totals", "join"], &backwards[..], more].concat());
        assert!(everything(&files, "joined", join) == one, "{of} parts");
    }
}

/// Nothing on standard output, and one line, with this part, on standard error.
fn one_line(arguments: &[&str], part: &str) {
    let (status, out, err) = ysh(arguments);
    assert_eq!((status, out.as_str(), err.lines().count()), (2, "", 1), "{arguments:?}: {err}");
    assert!(err.contains(part), "{part:?} is not in {err}");
}

#[test]
fn parts_that_do_not_belong_together_are_refused() {
    let files = Files::new("trials-parts");
    let part = |which: &str, name: &str, more: &[&str]| {
        let path = files.at(name);
        files.trials(&[&["--part", which, "--totals", &path], more].concat());
        path
    };
    let [one, two, three] = ["1/3", "2/3", "3/3"].map(|which| part(which, &format!("p{}.json", &which[..1]), &[]));
    let quarter = part("4/4", "q.json", &[]);
    let skipped = part("2/3", "skip.json", &["--on-refusal", "skip"]);
    one_line(&["totals", "join", &one, &two, &one], "part 1 of 3 is in ");
    one_line(&["totals", "join", &one, &two], "part 3 of 3 is not there; --partial joins those that are");
    one_line(&["totals", "join", &one, &quarter], "its part is one of 4, and that of ");
    one_line(&["totals", "join", &one, &skipped, &three], "it belongs to other runs than");
    one_line(&["totals", "join", &one, &skipped, &three], "--on-refusal is another");
    // Two of them, and the third to that.
    let some = files.at("some.json");
    let (_, out, _) = ysh(&["totals", "join", &three, &one, "--partial", "--totals", &some]);
    assert!(out.contains("parts    1, 3 of 3; the others are not in here"), "{out}");
    let whole = files.trials(&["--json"]).1;
    assert_eq!(ysh(&["totals", "join", &some, &two, "--json"]).1, whole);
    one_line(&["totals", "join", &some, &two, &three], "part 3 of 3 is in ");
    // Other bars under the same name.
    let text = read(&files.bars[2]);
    fs::write(&files.bars[2], text.replace(",1000,", ",1001,")).unwrap();
    let other = part("2/3", "other.json", &[]);
    one_line(&["totals", "join", &one, &other, &three], "b2.csv is another file");
    // Damage.
    let damaged = |from: &str, to: &str, part: &str| {
        let text = read(&one);
        assert!(text.contains(from), "{from}");
        let path = put(&files.folder, "damaged.json", text.replacen(from, to, 1));
        one_line(&["totals", "join", &path, &two, &three], part);
    };
    damaged("\"wins\":", "\"wins\":1", "not those of its runs");
    damaged("s1.json", "s0.json", "their SHA-256 is not the one that stands there");
    damaged("\"run\":3", "\"run\":4", "they are not those of its parts");
    damaged("\"done\":[1]", "\"done\":[1,1]", "they are not those of its parts");
    damaged("totals of ysh trials, 1", "totals of ysh trials, 2", "in the form of this version");
    damaged("}", "", "was expected");
    damaged("\"exact_pnl\":\"", "\"exact_pnl\":\"7", "tot");
    one_line(&["totals", "join", "none.json"], "cannot be read");
}

#[test]
fn refused_runs_are_rows() {
    let files = Files::new("trials-refused");
    let (status, out, err) = files.trials(&[]);
    assert_eq!((status, err.lines().count()), (2, 7), "{err}");
    let row = |file: &str, bars: &str| out.lines().find(|line| line.contains(file) && line.contains(bars)).unwrap();
    assert!(row("s1.json", "b1.csv").contains("-  not run: "), "{out}");
    assert!(row("s1.json", "b1.csv").contains("inf is not finite: refused 11 at 0"), "{out}");
    assert!(row("s3b.json", "b0.csv").contains("not run: "), "{out}");
    assert!(out.contains("15 runs of 5 files over 3 files of bars; 7 refused, and in no total"), "{out}");
    let (status, out, err) = files.trials(&["--on-refusal", "skip"]);
    assert_eq!((status, err.lines().count()), (2, 3), "{err}");
    assert_eq!(out.lines().filter(|line| line.ends_with("1 bar refused")).count(), 4, "{out}");
    let (file, bars) = (&files.strategies[0], &files.bars[0]);
    one_line(&["trials", file, "--bars", bars, "-"], "it is read once");
    one_line(&["trials", file, file, "--bars", bars], "it is named twice");
    one_line(&["trials", file, "--bars", bars, bars], "it is named twice");
    one_line(&["trials", file, "--bars", bars, "--csv", bars], "it is read by this command");
    one_line(&["trials", file, "--bars", bars, "--part", "3/2"], "such as 3/16");
}

#[test]
fn an_interrupted_run_goes_on() {
    let files = Files::new("trials-resume");
    let journal = files.at("j");
    let whole = files.trials(&["--json"]).1;
    let resumed = |more: &[&str]| files.trials(&[&["--json", "--resume", &journal], more].concat());
    assert_eq!(resumed(&["--threads", "1"]).1, whole);
    let kept = read(&journal);
    assert_eq!(kept.lines().count(), 16);
    // Cut in the head, after it, in the middle of a row, and not at all.
    let nth = |n: usize| kept.match_indices('\n').nth(n).unwrap().0 + 1;
    for (cut, left) in [(5, 0), (nth(0), 0), (nth(7) + 20, 7), (nth(7) - 1, 6), (kept.len(), 15)] {
        // What was done is taken as it stands: it is not done again.
        let marked = kept[..cut].replacen("\"refused_bars\":0", "\"refused_bars\":77", 1);
        fs::write(&journal, &marked).unwrap();
        let out = resumed(&[]).1;
        assert_eq!(out.contains("\"refused_bars\":77"), left > 0, "cut at {cut}");
        assert_eq!(out.replacen("\"refused_bars\":77", "\"refused_bars\":0", 1), whole, "cut at {cut}");
        assert_eq!(read(&journal).lines().count(), 16, "cut at {cut}");
        assert!(read(&journal).starts_with(&marked[..marked.rfind('\n').map_or(0, |end| end + 1)]));
    }
    // By parts, from one journal.
    fs::remove_file(&journal).unwrap();
    for which in ["2/3", "1/3", "3/3"] {
        resumed(&["--part", which]);
    }
    assert_eq!(resumed(&[]).1, whole);
    let (status, _, err) = resumed(&["--lot", "1"]);
    assert!(status == 2 && err.contains("it is the journal of other runs: --lot is another"), "{err}");
    fs::write(&journal, "time,open\n").unwrap();
    assert!(resumed(&[]).2.contains("a journal of `ysh trials --resume` was expected"));
}

/// A doubt of a file is told once, however many runs it has, and with --strict its runs are refused.
#[test]
fn doubts_are_told() {
    let files = Files::new("trials-doubts");
    let odd = put(&files.folder, "odd.json", strategy(2).replace("\"warmup\"", "\"colour\": \"red\", \"warmup\""));
    let other = put(&files.folder, "late.csv", bars(60, 1.0).replace("\n120000,", "\n119,"));
    let asked = |more: &[&str]| {
        ysh(&[&["trials", &odd, &files.strategies[0], "--bars", &files.bars[0], &files.bars[2], &other], more].concat())
    };
    let (status, out, err) = asked(&[]);
    let warnings: Vec<&str> = out.lines().take_while(|line| line.starts_with("WARNING  ")).collect();
    assert_eq!((status, err.as_str()), (0, ""));
    assert!(warnings.len() >= 2 && warnings.iter().filter(|line| line.contains("colour")).count() == 1, "{out}");
    assert!(warnings.iter().any(|line| line.contains("late.csv: ")), "{out}");
    let (status, out, err) = asked(&["--json"]);
    assert_eq!((status, err.lines().count()), (0, warnings.len()));
    assert!(out.contains("colour"));
    let (status, out, _) = asked(&["--strict"]);
    assert_eq!((status, out.lines().filter(|line| line.contains("not run: ")).count()), (2, 4), "{out}");
}

/// After a click on a head the rows stand by it, and after another the other way.
#[test]
fn a_click_sorts_the_page() {
    let Some(program) = chromium() else { return };
    let files = Files::new("trials-page");
    let html = files.at("p.html");
    let long = put(&files.folder, &format!("{}.json", "unbroken".repeat(20)), strategy(7));
    let mut more: Vec<&str> = files.strategies.iter().map(String::as_str).collect();
    more.push(&long);
    let bars: Vec<&str> = files.bars.iter().map(String::as_str).collect();
    ysh(&[&["trials"], &more[..], &["--bars"], &bars, &["--html", &html]].concat());
    let page = read(&html);
    assert!(!page.contains("http") && page.matches("<svg class=\"small\"").count() == 10);
    whole(&program, &files.folder, &page);
    let click = |clicks: usize| {
        let script = format!(
            "<script>const head = [...document.querySelectorAll('.runs th button')].find(b => b.textContent === 'pnl');
             for (let n = 0; n < {clicks}; n++) head.click();
             document.body.dataset.order = [...document.querySelectorAll('.runs tbody tr')].map(r => r.cells[7]?.dataset.by ?? '').join(' ').trim();</script></body>"
        );
        let path = put(&files.folder, "clicked.html", page.replace("</body>", &script));
        let dom = browse(&program, &files.folder, &["--dump-dom", &format!("file://{path}")]);
        let start = dom.find("data-order=\"").expect("the page ran") + 12;
        let order = dom[start..].split('"').next().unwrap();
        order.split_whitespace().map(|x| x.parse().unwrap()).collect::<Vec<f64>>()
    };
    let mut sorted = click(0);
    assert_eq!(sorted.len(), 10);
    sorted.sort_by(f64::total_cmp);
    assert_ne!(click(0), sorted);
    assert_eq!(click(1), sorted);
    sorted.reverse();
    assert_eq!(click(2), sorted);
}

#[test]
fn shells_complete_the_commands() {
    for (shell, part) in [("bash", "complete -F _ysh"), ("zsh", "#compdef ysh"), ("fish", "complete -c ysh")] {
        let (status, out, err) = ysh(&["completions", shell]);
        assert_eq!((status, err.as_str()), (0, ""));
        assert!(out.contains(part) && out.contains("trials") && out.contains("on-refusal"), "{shell}");
    }
    assert_eq!(ysh(&["completions", "tcsh"]).0, 2);
}
