//! `ysh compare` from outside: two files of runs, and two libraries.

mod common;

use std::fs;
use std::path::{Path, PathBuf};
use std::process::Command;

use common::browser::{chromium, whole};
use common::{folder, ysh};
use serde_json::Value;

/// The library that the program was built with.
const ARCHIVE: &str = env!("YSH_LIBRARY_ARCHIVE");

fn root() -> PathBuf {
    fs::canonicalize(Path::new(env!("CARGO_MANIFEST_DIR")).join("../..")).unwrap()
}

fn day() -> String {
    root().join("examples/bars/day.csv").to_str().unwrap().to_owned()
}

/// The crossover of the examples with another text in a place.
fn strategy(folder: &Path, name: &str, from: &str, to: &str) -> String {
    let text = fs::read_to_string(root().join("examples/strategies/crossover.json")).unwrap();
    assert!(text.contains(from));
    put(folder, name, text.replace(from, to))
}

fn put(folder: &Path, name: &str, text: impl AsRef<[u8]>) -> String {
    let path = folder.join(name);
    fs::write(&path, text).unwrap();
    path.to_str().unwrap().to_owned()
}

/// A run as a file, and what is in it.
fn run(folder: &Path, name: &str, strategy: &str, bars: &str) -> (String, Value) {
    let (status, out, err) = ysh(&["run", strategy, bars, "--json"]);
    assert_eq!(status, 0, "{err}");
    (put(folder, name, &out), serde_json::from_str(&out).unwrap())
}

fn compared(a: &str, b: &str) -> (u8, Value) {
    let (status, out, err) = ysh(&["compare", a, b, "--json"]);
    assert_eq!(err, "");
    (status, serde_json::from_str(&out).unwrap())
}

#[test]
fn a_run_and_itself() {
    let folder = folder("compare-same");
    let plain = strategy(&folder, "s.json", "\"bps\": 2", "\"bps\": 2");
    let (a, _) = run(&folder, "a.json", &plain, &day());
    let (b, _) = run(&folder, "b.json", &plain, &day());
    let (status, out, err) = ysh(&["compare", &a, &b]);
    assert_eq!((status, err.as_str(), out.lines().next()), (0, "", Some("nothing differs")));
    assert_eq!(compared(&a, &b).1["same"], true);
}

/// All that differs, and nothing else, as the files have it.
#[test]
fn what_differs_is_told() {
    let folder = folder("compare-files");
    let (a, one) = run(&folder, "a.json", &strategy(&folder, "s.json", "10 }", "10 }"), &day());
    let short: String = fs::read_to_string(day()).unwrap().lines().take(1200).map(|line| format!("{line}\n")).collect();
    let short = put(&folder, "short.csv", short);
    for (strategy, bars) in [
        (strategy(&folder, "t.json", "\"taker_bps\": 5", "\"taker_bps\": 6"), day()),
        (strategy(&folder, "u.json", "\"stop_loss_pct\": 10", "\"stop_loss_pct\": 0.1"), day()),
        (strategy(&folder, "v.json", "10 }", "10 }"), short),
    ] {
        let (b, other) = run(&folder, "b.json", &strategy, &bars);
        let (status, found) = compared(&a, &b);
        assert_eq!((status, &found["same"]), (1, &false.into()));
        let list = |run: &Value, of: &str| run[of].as_array().unwrap().clone();
        let mut equity = list(&one, "equity").into_iter().zip(list(&other, "equity")).enumerate();
        let expected = equity.find(|(_, (a, b))| a[1] != b[1]);
        match &expected {
            None => assert!(found["equity"].is_null()),
            Some((bar, (a, b))) => {
                let equity = &found["equity"];
                assert_eq!((&equity["bar"], &equity["time"]), (&(*bar).into(), &a[0]));
                assert_eq!((&equity["a"], &equity["b"]), (&a[1], &b[1]));
            }
        }
        let mut differing = Vec::new();
        for (at, (x, y)) in list(&one, "trades").into_iter().zip(list(&other, "trades")).enumerate() {
            let words: Vec<String> = x.as_object().unwrap().keys().filter(|key| x[*key] != y[*key]).cloned().collect();
            if !words.is_empty() {
                differing.push((at, words));
            }
        }
        let told = list(&found, "trades");
        let told = told.iter().map(|t| {
            let words = t["words"].as_object().unwrap();
            let at = t["trade"].as_u64().unwrap() as usize;
            for (word, both) in words {
                assert_eq!((&both["a"], &both["b"]), (&one["trades"][at][word], &other["trades"][at][word]));
            }
            (at, words.keys().cloned().collect::<Vec<_>>())
        });
        assert_eq!(told.collect::<Vec<_>>(), differing);
        for (more, of) in [("more_trades", "trades"), ("more_bars", "equity")] {
            let counts = [list(&one, of).len(), list(&other, of).len()];
            match counts[0] == counts[1] {
                true => assert!(found[more].is_null()),
                false => assert_eq!(
                    found[more],
                    serde_json::json!({"from": counts[0].min(counts[1]), "a": counts[0], "b": counts[1]})
                ),
            }
        }
        let (_, out, _) = ysh(&["compare", &a, &b]);
        assert!(out.starts_with("the runs differ\n"), "{out}");
        assert_eq!(out.contains("equity   first differs at bar "), expected.is_some(), "{out}");
        let rows = differing.iter().flat_map(|(_, words)| words);
        assert!(rows.clone().all(|word| out.contains(&format!("  {word}  "))), "{out}");
    }
}

#[test]
fn the_page_fits() {
    let Some(program) = chromium() else { return };
    let folder = folder("compare-page");
    let (a, _) = run(&folder, "a.json", &strategy(&folder, "s.json", "10 }", "10 }"), &day());
    let (b, _) =
        run(&folder, "b.json", &strategy(&folder, "t.json", "\"stop_loss_pct\": 10", "\"stop_loss_pct\": 0.1"), &day());
    let html = folder.join("p.html");
    for (other, svgs) in [(&a, 1), (&b, 2)] {
        ysh(&["compare", &a, other, "--html", html.to_str().unwrap()]);
        let page = fs::read_to_string(&html).unwrap();
        assert_eq!((page.matches("<svg").count(), page.contains("class=\"parts\"")), (svgs, svgs == 2));
        assert!(!page.contains("http:") && !page.contains("<script"));
        whole(&program, &folder, &page);
    }
}

#[test]
fn what_is_no_run_is_told() {
    let folder = folder("compare-bad");
    let (a, run) = run(&folder, "a.json", &strategy(&folder, "s.json", "10 }", "10 }"), &day());
    let text = run.to_string();
    for (bad, part) in [
        (String::new(), "a run that `ysh run --json` wrote was expected"),
        ("{}".to_owned(), "missing field"),
        (text.replacen("\"signal\"", "\"boredom\"", 1), "trades[0].reason: \"boredom\" is no reason"),
        (text.replacen("\"qty\":", "\"qty\":\"x\",\"q\":", 1), "was expected"),
    ] {
        let b = put(&folder, "b.json", bad);
        let (status, out, err) = ysh(&["compare", &a, &b]);
        assert_eq!((status, out.as_str(), err.lines().count()), (2, "", 1), "{err}");
        assert!(err.contains(part) && err.contains("b.json"), "{err}");
    }
}

/// The library itself, as an archive and as a shared object, and one that charges a basis point more: an update that is not one.
#[test]
fn two_libraries() {
    let folder = folder("compare-libraries");
    let plain = strategy(&folder, "s.json", "10 }", "10 }");
    let dearer = strategy(&folder, "t.json", "\"taker_bps\": 5", "\"taker_bps\": 6");
    let runs = |program: &str| Command::new(program).arg("--version").output().is_ok();
    if !runs("cc") || !runs("objcopy") {
        eprintln!("no cc or no objcopy here: libraries were not compared");
        return;
    }
    let (status, out, err) = ysh(&["compare", &plain, &day(), "--lib-a", ARCHIVE]);
    assert_eq!((status, out.lines().next(), err.as_str()), (0, Some("nothing differs"), ""));
    let renamed = folder.join("renamed.a").to_str().unwrap().to_owned();
    let shim = put(
        &folder,
        "shim.c",
        "#include <string.h>\n\
         typedef unsigned long long w; typedef unsigned char b; typedef __SIZE_TYPE__ z;\n\
         w real_steps(const w*,z,w*,z,const w*,z,w*,z,w*,z,w*,z,const b*,z,const b*,z,const b*,z,const b*,z,w*);\n\
         w ysh_steps(const w*s,z sl,w*a,z al,const w*c,z cl,w*d,z dl,w*e,z el,w*f,z fl,const b*g,z gl,const b*h,z hl,\n\
                     const b*i,z il,const b*j,z jl,w*k) {\n\
           w own[32]; double fee; memcpy(own, s, sizeof own); memcpy(&fee, own + 8, 8); fee += 1; memcpy(own + 8, &fee, 8);\n\
           return real_steps(own, sl, a, al, c, cl, d, dl, e, el, f, fl, g, gl, h, hl, i, il, j, jl, k); }\n",
    );
    let done = Command::new("objcopy").args(["--redefine-sym", "ysh_steps=real_steps", ARCHIVE, &renamed]).status();
    assert!(done.unwrap().success());
    let shared = folder.join("updated.so").to_str().unwrap().to_owned();
    let linked = Command::new("cc")
        .args([
            "-shared",
            "-fPIC",
            "-Wl,-Bsymbolic",
            "-o",
            &shared,
            &shim,
            "-Wl,--whole-archive",
            &renamed,
            "-Wl,--no-whole-archive",
        ])
        .status();
    assert!(linked.unwrap().success());
    let (status, out, err) = ysh(&["compare", &plain, &day(), "--lib-a", ARCHIVE, "--lib-b", &shared, "--json"]);
    assert_eq!((status, err.as_str()), (1, ""));
    let found: Value = serde_json::from_str(&out).unwrap();
    // What the fee alone makes of it, by two runs of this library.
    let (a, _) = run(&folder, "a.json", &plain, &day());
    let (b, _) = run(&folder, "b.json", &dearer, &day());
    let (_, expected) = compared(&a, &b);
    for part in ["equity", "trades", "more_trades", "more_bars"] {
        assert_eq!(found[part], expected[part], "{part}");
    }
    assert!(found["trades"].as_array().unwrap().len() > 10);
    for (file, part) in
        [("none.so", "cannot be loaded"), (&plain[..], "cannot be loaded"), ("none.a", "cannot link it")]
    {
        let (status, out, err) = ysh(&["compare", &plain, &day(), "--lib-b", file]);
        assert_eq!((status, out.as_str(), err.lines().count()), (2, "", 1), "{err}");
        assert!(err.contains(part), "{err}");
    }
}
