//! A folder of 1,000 strategies is answered in under two seconds (built for release; otherwise the time is only told).

mod common;

use std::fs;
use std::time::Instant;

use common::{folder, ysh};

/// A strategy of some sixty nodes, another for each number.
fn strategy(number: usize) -> String {
    let test = |n: usize| {
        let back = (number * 7 + n * 13) % 120;
        format!(
            r#"{{"gt": [{{"add": [{{"prev": ["ema", {back}]}}, {{"mul": [2, "atr"]}}]}}, {{"prev": [{{"price": "close"}}, {n}]}}]}}"#
        )
    };
    let tests = |from: usize| (from..from + 4).map(test).collect::<Vec<_>>().join(",");
    format!(
        r#"{{"symbol": "x", "timeframe": "1m", "indicators": {{"ema": {{"type": "Ema"}}, "atr": {{"type": "Atr"}}}},
            "entry": {{"all": [{}]}}, "exit": {{"any": [{{"not": {{"all": [{}]}}}}, {{"bars_since_entry": {{"ge": 9}}}}]}},
            "sizing": {{"type": "fixed_qty", "qty": 1}}}}"#,
        tests(0),
        tests(4)
    )
}

#[test]
fn a_thousand_strategies() {
    let folder = folder("thousand");
    for number in 0..1000 {
        fs::write(folder.join(format!("client-{number:04}.json")), strategy(number)).unwrap();
    }
    let html = folder.join("page.html");
    let place = folder.to_str().unwrap();
    let asked =
        ["holdup", place, "--page", "256", "--page-time", "0.7ms", "--have", "5ms", "--html", html.to_str().unwrap()];
    // The best of three: other work on the machine is not to be told here.
    let times = (0..3).map(|_| {
        let began = Instant::now();
        let (status, out, err) = ysh(&asked);
        assert_eq!((status, err.as_str()), (3, ""));
        assert!(out.contains("1,000 dumps one after another take"), "{out}");
        began.elapsed()
    });
    let took = times.min().unwrap();
    eprintln!("1,000 strategies took {took:?}");
    assert!(cfg!(debug_assertions) || took.as_secs_f64() < 2.0, "{took:?}");
}
