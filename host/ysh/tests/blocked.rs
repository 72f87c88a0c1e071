//! `ysh blocked` from outside: its counts are those of `ysh why` at each bar, and its page shows a bar's chain on a click. Where there is no
//! chromium the page is not opened.

mod common;

use std::collections::BTreeMap;
use std::fs;
use std::path::Path;

use common::browser::{browse, chromium, whole};
use common::{folder, ysh};
use serde_json::Value;

fn example(name: &str) -> String {
    Path::new(env!("CARGO_MANIFEST_DIR")).join("../../examples").join(name).to_str().unwrap().to_owned()
}

fn put(folder: &Path, name: &str, text: &str) -> String {
    let path = folder.join(name);
    fs::write(&path, text).unwrap();
    path.to_str().unwrap().to_owned()
}

fn json(arguments: &[&str]) -> Value {
    let (status, out, err) = ysh(arguments);
    assert_eq!((status, err.as_str()), (0, ""), "{arguments:?}");
    serde_json::from_str(&out).unwrap()
}

/// The first bars of the example's day.
fn bars(folder: &Path, count: usize) -> String {
    let text = fs::read_to_string(example("bars/day.csv")).unwrap();
    let some: Vec<&str> = text.lines().take(count + 1).collect();
    put(folder, "bars.csv", &(some.join("\n") + "\n"))
}

/// Long at a limit that is reached late or never, short, and out by a rule with a Not: orders that work, both sides, values that are missing.
const BOTH: &str = r#"{
  "symbol": "x", "timeframe": "1m", "indicators": {"rsi": {"type": "Rsi"}},
  "entry": {"any": [{"all": [{"lt": ["rsi", 45]}, {"rising": [{"price": "close"}, 2]}]}, {"lt": ["rsi", 25]}]},
  "exit": {"not": {"gt": [{"price": "close"}, {"prev": [{"price": "close"}, 3]}]}},
  "short_entry": {"all": [{"gt": ["rsi", 55]}, {"not": {"in_position": true}}]}, "short_exit": {"bars_since_entry": {"ge": 4}},
  "sizing": {"type": "fixed_qty", "qty": 1}, "warmup": 5,
  "execution": {"order_type": "limit", "limit_offset_pct": 0.05}
}"#;

/// Each bar's `ysh why`, counted: where the rule was asked, what it said, and the node that its chain ends at.
fn by_hand(rules: &str, bars: &str, tree: &str, count: usize) -> (u64, u64, BTreeMap<u64, u64>) {
    let (mut asked, mut yes, mut decided) = (0, 0, BTreeMap::new());
    for bar in 0..count {
        let why = json(&["why", rules, bars, "--at", &format!("bar:{bar}"), "--json"]);
        let Some(rule) = why["bars"][0]["rules"].as_array().unwrap().iter().find(|rule| rule["tree"] == tree) else {
            continue;
        };
        asked += 1;
        if rule["answer"] == true {
            yes += 1;
            continue;
        }
        // The chain itself ends where the levels stop rising by one, or at an Any whose nodes follow.
        let chain = rule["chain"].as_array().unwrap();
        let mut end = 0;
        while end + 1 < chain.len() && !ends_there(chain, end) {
            end += 1;
        }
        *decided.entry(chain[end]["node"].as_u64().unwrap()).or_insert(0) += 1;
    }
    (asked, yes, decided)
}

/// An All that says yes or an Any that says no is the last of a chain; what follows is about each of its nodes.
fn ends_there(chain: &[Value], at: usize) -> bool {
    let text = chain[at]["text"].as_str().unwrap();
    text.ends_with("each of them says yes") || text.ends_with("none of them says yes")
}

#[test]
fn counts_are_those_of_why() {
    let folder = folder("blocked-counts");
    let bars = bars(&folder, 160);
    let both = put(&folder, "both.json", BOTH);
    let hour = example("strategies/hour.json");
    let mut total = 0;
    for (rules, tree, option) in [
        (&both, "entry", "entry"),
        (&both, "exit", "exit"),
        (&both, "short entry", "short-entry"),
        (&both, "short exit", "short-exit"),
        (&hour, "entry", "entry"),
        (&hour, "exit", "exit"),
    ] {
        let (asked, yes, decided) = by_hand(rules, &bars, tree, 160);
        let found = json(&["blocked", rules, &bars, "--tree", option, "--json"]);
        assert_eq!(
            (&found["bars"], &found["asked"], &found["yes"]),
            (&160.into(), &asked.into(), &yes.into()),
            "{tree}"
        );
        let nodes = found["nodes"].as_array().unwrap();
        let counted: BTreeMap<u64, u64> = nodes
            .iter()
            .map(|node| (node["node"].as_u64().unwrap(), node["decided"].as_u64().unwrap()))
            .filter(|(_, count)| *count > 0)
            .collect();
        assert_eq!(counted, decided, "{tree}");
        let rest: u64 = found["not_asked"].as_object().unwrap().values().map(|count| count.as_u64().unwrap()).sum();
        assert_eq!(rest + asked, 160, "{tree}");
        for node in nodes {
            let of = |key: &str| node[key].as_u64().unwrap();
            assert_eq!(of("yes") + of("no") + of("missing"), asked, "{node}");
        }
        total += asked;
    }
    assert!(total > 200, "{total}");
    let found = json(&["blocked", &both, &bars, "--json"]);
    assert!(
        found["not_asked"]["order"].as_u64() > Some(0) && found["not_asked"]["position"].as_u64() > Some(0),
        "{found}"
    );
    let early = json(&["blocked", &both, &bars, "--json", "--to", "bar:20"]);
    assert!(early["nodes"].as_array().unwrap().iter().any(|node| node["missing"].as_u64() > Some(0)), "{early}");
}

#[test]
fn a_stretch_is_told() {
    let (rules, bars) = (example("strategies/hour.json"), example("bars/day.csv"));
    let (status, out, err) = ysh(&["blocked", &rules, &bars, "--from", "10:00", "--to", "2026-01-05T13:00:00+01:00"]);
    assert_eq!((status, err.as_str()), (0, ""));
    for part in [
        "bars      121 bars of ",
        ", 2026-01-05 10:00 to 2026-01-05 12:00\n",
        "asked     at 70 bars; not asked: a position is held 51\n",
        "answered  yes 26, no 44\n",
        "#1    close > high 60 bars before       38   32  38        0     28       38  2026-01-05 10:00  2026-01-05 10:37\n",
        "34 bars were one test away from a yes; the first 10 of them\n  bar 600, 2026-01-05 10:00  #1 close > high 60 bars before: no, close is 3,524.83",
    ] {
        assert!(out.contains(part), "{part:?} is not in\n{out}");
    }
    let numbers = json(&["blocked", &rules, &bars, "--from", "600", "--to", "bar:720", "--json"]);
    assert_eq!((&numbers["bars"], &numbers["asked"]), (&121.into(), &70.into()));
    let (status, _, err) = ysh(&["blocked", &rules, &bars, "--tree", "short-entry"]);
    assert!(status == 2 && err.contains("--tree: the short entry is absent, and never yes"), "{err}");
}

/// Bars far into a file: a click on the last ones shows their values too.
#[test]
fn every_bar_has_its_values() {
    const BARS: usize = 30_000;
    let folder = folder("blocked-long");
    let both = put(&folder, "both.json", BOTH);
    let mut text = "time,open,high,low,close,volume,rsi\n".to_owned();
    for n in 0..BARS {
        let (time, price, rsi) = (1_735_689_600_000 + 60_000 * n, 100 + n * 7 % 13, 20 + n * 11 % 60);
        text.push_str(&format!("{time},{price},{},{},{price}.25,5,{rsi}.5\n", price + 1, price - 1));
    }
    let bars = put(&folder, "long.csv", &text);
    let html = folder.join("p.html").to_str().unwrap().to_owned();
    assert_eq!(ysh(&["blocked", &both, &bars, "--html", &html]).0, 0);
    let page = fs::read_to_string(&html).unwrap();
    assert!(page.contains("Every bar has the values of its chain here; a page takes 30 MB of them at most."));
    let Some(program) = chromium() else { return };
    let click = r#"<script>window.addEventListener('load', () => {
      const near = document.getElementById('near'), whole = document.getElementById('whole'), all = [];
      const click = (it, share) => {
        const box = it.getBoundingClientRect();
        it.dispatchEvent(new MouseEvent('click', { clientX: box.left + share * box.width, clientY: box.top + 5 }));
      };
      click(whole, 0.9999);
      for (let bar = 200; bar < 240; bar++) {
        click(near, (bar + 0.5) / 240);
        all.push([...document.querySelectorAll('#chain b, #chain li')].map((it) => it.textContent));
      }
      document.body.innerHTML = '<pre id="all"></pre>';
      document.getElementById('all').textContent = JSON.stringify(all);
    });</script></body>"#;
    let path = put(&folder, "clicked.html", &page.replace("</body>", click));
    let dom = browse(&program, &folder, &["--dump-dom", &format!("file://{path}")]);
    let text = dom.split("<pre id=\"all\">").nth(1).and_then(|rest| rest.split("</pre>").next()).expect("clicked");
    let text = text.replace("&lt;", "<").replace("&gt;", ">").replace("&amp;", "&");
    let all: Vec<Vec<String>> = serde_json::from_str(&text).unwrap();
    let mut chains = 0;
    for (shown, bar) in all.iter().zip(BARS - 40..).step_by(3) {
        assert!(shown[0].starts_with(&format!("Bar {bar}, ")), "{bar}: {shown:?}");
        let why = json(&["why", &both, &bars, "--at", &format!("bar:{bar}"), "--json"]);
        let rules = why["bars"][0]["rules"].as_array().unwrap();
        let Some(rule) = rules.iter().find(|rule| rule["tree"] == "entry") else { continue };
        let last = rule["chain"].as_array().unwrap().last().unwrap();
        let wanted = format!("#{} {}", last["node"], last["text"].as_str().unwrap());
        assert!(shown.contains(&wanted), "{wanted} is not in {shown:?}");
        chains += 1;
    }
    assert!(chains > 0, "{all:?}");
}

/// Every bar in turn is clicked, and the page shows what `ysh why` says there.
#[test]
fn a_click_shows_the_chain() {
    let folder = folder("blocked-page");
    let both = put(&folder, "both.json", &BOTH.replace("\"x\"", "\"</script> & <x>\""));
    let bars = bars(&folder, 120);
    let html = folder.join("p.html").to_str().unwrap().to_owned();
    assert_eq!(ysh(&["blocked", &both, &bars, "--html", &html]).0, 0);
    let page = fs::read_to_string(&html).unwrap();
    assert!(!page.contains("http") && !page.contains("src="), "a page stands by itself");
    let Some(program) = chromium() else { return };
    whole(&program, &folder, &page);
    let click = r#"<script>window.addEventListener('load', () => {
      const near = document.getElementById('near'), box = near.getBoundingClientRect(), all = [];
      for (let bar = 0; bar < 120; bar++) {
        near.dispatchEvent(new MouseEvent('click', { clientX: box.left + (bar + 0.5) * box.width / 120, clientY: box.top + 5 }));
        all.push([...document.querySelectorAll('#chain b, #chain li')].map((it) => it.textContent));
      }
      document.body.innerHTML = '<pre id="all"></pre>';
      document.getElementById('all').textContent = JSON.stringify(all);
    });</script></body>"#;
    let path = put(&folder, "clicked.html", &page.replace("</body>", click));
    let dom = browse(&program, &folder, &["--dump-dom", &format!("file://{path}")]);
    let text = dom
        .split("<pre id=\"all\">")
        .nth(1)
        .and_then(|rest| rest.split("</pre>").next())
        .expect("the page was clicked");
    let text = text.replace("&lt;", "<").replace("&gt;", ">").replace("&amp;", "&");
    let all: Vec<Vec<String>> = serde_json::from_str(&text).unwrap();
    let mut chains = 0;
    for (bar, shown) in all.iter().enumerate() {
        assert!(shown[0].starts_with(&format!("Bar {bar}, 2026-01-05 ")), "{shown:?}");
        let why = json(&["why", &both, &bars, "--at", &format!("bar:{bar}"), "--json"]);
        let rules = why["bars"][0]["rules"].as_array().unwrap();
        let Some(rule) = rules.iter().find(|rule| rule["tree"] == "entry") else {
            assert!(shown.iter().any(|line| line == "The rule was not asked at this bar."), "{shown:?}");
            continue;
        };
        let root = if rule["answer"] == true { " yes" } else { " no" };
        assert!(shown.iter().any(|line| line.ends_with(root) && line.starts_with("#0 any of 2:")), "{shown:?}");
        let last = rule["chain"].as_array().unwrap().last().unwrap();
        let wanted = format!("#{} {}", last["node"], last["text"].as_str().unwrap());
        assert!(shown.contains(&wanted), "{wanted} is not in {shown:?}");
        chains += 1;
    }
    assert!(chains > 20, "{chains}");
}
