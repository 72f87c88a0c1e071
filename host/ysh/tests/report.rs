//! The report of `ysh run` in a real browser: nothing stands outside it, at 1,200 pixels and on paper. Where there is no chromium the
//! tests say so and pass.

mod common;

use std::fs;
use std::path::Path;

use common::browser::{browse, chromium, whole};
use common::{folder, ysh, Dice};

/// Always in a position: in at once, out after a bar; long and short in turn.
const BUSY: &str = r#"{
  "symbol": "A & <B> \"C\"", "timeframe": "1m", "indicators": {"a": {"type": "Ema"}},
  "entry": {"gt": ["a", 0]}, "exit": {"bars_since_entry": {"ge": 1}},
  "short_entry": {"le": ["a", 0]}, "short_exit": {"bars_since_entry": {"ge": 1}},
  "sizing": {"type": "fixed_fraction", "fraction": 1}, "costs": {"taker_bps": 5, "funding": true},
  "risk": {"stop_loss_pct": 1, "take_profit_pct": 3, "trailing_stop_pct": 2}, "warmup": 0
}"#;

/// A walk of so many bars in prices of a size.
fn bars(count: usize, start: i64, size: f64) -> String {
    let mut dice = Dice(9);
    let mut price = size;
    let mut text = "time,open,high,low,close,volume,a,mark,rate\n".to_owned();
    for n in 0..count as i64 {
        let open = price;
        price *= 1.0 + (dice.below(201) as f64 - 100.0) / 5000.0;
        let (high, low) = (open.max(price) * 1.003, open.min(price) * 0.997);
        let a = dice.below(3) as f64 - 1.0;
        let funding = if n % 5 == 0 { format!("{open},0.0001") } else { ",".to_owned() };
        text.push_str(&format!(
            "{},{open},{high},{low},{price},{},{a},{funding}\n",
            start + 60_000 * n,
            dice.below(900)
        ));
    }
    text
}

fn page(folder: &Path, strategy: &str, bars: &str, more: &[&str]) -> String {
    let (rules, csv, html) = (folder.join("rules.json"), folder.join("b.csv"), folder.join("p.html"));
    fs::write(&rules, strategy).unwrap();
    fs::write(&csv, bars).unwrap();
    let files = [rules.to_str().unwrap(), csv.to_str().unwrap(), "--html", html.to_str().unwrap()];
    let (status, _, err) = ysh(&[&["run"], &files[..], more].concat());
    assert!(status != 2, "{err}");
    fs::read_to_string(html).unwrap()
}

#[test]
fn reports_fit_on_the_page() {
    let Some(program) = chromium() else { return };
    let folder = folder("report");
    let day = 1_767_571_200_000;
    for (count, start, size) in [(0, 0, 1.0), (1, day, 100.0), (2, 0, 5.0), (300, day, 100.0), (3000, day + 1, 6e4)] {
        whole(&program, &folder, &page(&folder, BUSY, &bars(count, start, size), &[]));
    }
}

/// Prices and equity of any size, times of twenty digits, thousands of trades, names without a blank, refused bars.
#[test]
fn odd_reports_fit_too() {
    let Some(program) = chromium() else { return };
    let folder = folder("report-odd");
    for (start, size, capital) in
        [(i64::MIN, 1e-9, "1e-300"), (i64::MAX - 200_000_000, 1e14, "123456789012345.67"), (0, 1e300, "1e300")]
    {
        whole(&program, &folder, &page(&folder, BUSY, &bars(400, start, size), &["--capital", capital]));
    }
    let long = BUSY.replace("A & <B>", &"unbroken".repeat(40));
    let broken = bars(400, 0, 100.0).replace(",-1,", ",nan,");
    let some = page(&folder, &long, &broken, &["--on-refusal", "skip"]);
    assert!(some.contains("refused</b>, and left out"));
    whole(&program, &folder, &some);
    let many = page(&folder, BUSY, &bars(20_000, 0, 100.0), &[]);
    assert!(many.contains("trades between are in no row here") && many.contains("trades every"));
    whole(&program, &folder, &many);
}

/// What stands in a page between two texts.
fn between<'a>(page: &'a str, start: &str, end: &str) -> &'a str {
    page.split(start).nth(1).and_then(|rest| rest.split(end).next()).unwrap_or_else(|| panic!("{start:?} is not in it"))
}

/// Bars of a minute with these closes, and a slot that is 1 where a trade is to be entered and -1 where one is to be left.
fn told(closes: &[(f64, i32)], start: i64, step: i64) -> String {
    let mut text = "time,open,high,low,close,volume,a\n".to_owned();
    for (n, (close, a)) in closes.iter().enumerate() {
        text.push_str(&format!("{},{close},{close},{close},{close},10,{a}\n", start + step * n as i64));
    }
    text
}

const PLAIN: &str = r#"{
  "symbol": "x", "timeframe": "1m", "indicators": {"a": {"type": "A"}},
  "entry": {"gt": ["a", 0]}, "exit": {"lt": ["a", 0]}, "short_entry": {"eq": ["a", -2]}, "short_exit": {"gt": ["a", 0]},
  "sizing": {"type": "fixed_qty", "qty": 1}, "warmup": 0, "risk": {"stop_loss_pct": 50}
}"#;

/// Three trades: won 10, lost 5, and a short that won 20. A month lies between each two bars.
#[test]
fn the_figures_beside_the_metrics() {
    let folder = folder("report-figures");
    let closes = [
        (100.0, 1),
        (100.0, -1),
        (110.0, 1),
        (110.0, -1),
        (105.0, -2),
        (105.0, 0),
        (85.0, 1),
        (85.0, 0),
        (120.0, 0),
        (120.0, 0),
    ];
    let month = 31 * 86_400_000;
    let page = page(&folder, PLAIN, &told(&closes, 1_767_571_200_000, month), &["--capital", "1000"]);
    for part in [
        "<td>buy and hold</td><td>20%, from the first close to the last, without costs</td>",
        // From the fill of each entry to the fill of its exit: bars 1 and 2, 3 and 4, 5 to 7.
        "<td>exposure</td><td>70% of the bars had a position</td>",
        "<td>streaks</td><td>1 trade won in a row, 1 trade lost in a row, at most</td>",
        "<td>all</td><td>3</td><td>2</td><td>1</td><td>25</td><td>15</td><td>-5</td><td>20</td><td>-5</td>",
        "<td>long</td><td>2</td><td>1</td><td>1</td><td>5</td>",
        "<td>short</td><td>1</td><td>1</td><td>0</td><td>20</td>",
        "<td>entry</td><td>a &gt; 0</td>",
        "<td>sizing</td><td>a quantity of 1; at most 1 times the equity</td>",
        "<td>risk</td><td>stop loss 50%</td>",
        "<small>per bar, not annualised</small>",
        "<h2>Months</h2>",
        "<span><i>2026-01</i><b>0%</b></span>",
        "<h2>Returns of the trades</h2>",
    ] {
        assert!(page.contains(part), "{part:?} is not in {page}");
    }
    // One month alone is no table of months.
    let folder = common::folder("report-month");
    let short = self::page(&folder, PLAIN, &told(&closes, 1_767_571_200_000, 60_000), &[]);
    assert!(!short.contains("<h2>Months</h2>"));
}

/// Every link of the table leads to a chain, of a rule that said yes at a bar before the fill; `ysh why` says the same there.
#[test]
fn a_trade_leads_to_its_whys() {
    let folder = folder("report-why");
    let bars = bars(400, 1_767_571_200_000, 100.0);
    let page = page(&folder, BUSY, &bars, &[]);
    let links: Vec<&str> = page.split("<a href=\"#").skip(1).map(|rest| rest.split('"').next().unwrap()).collect();
    assert!(links.len() > 40, "{}", links.len());
    let (rules, csv) = (folder.join("rules.json"), folder.join("b.csv"));
    for link in links.iter().take(60) {
        let told = between(&page, &format!("<div class=\"decided\" id=\"{link}\">"), "</div>");
        let bar = between(told, "decided at bar ", ",");
        let (status, out, err) =
            ysh(&["why", rules.to_str().unwrap(), csv.to_str().unwrap(), "--at", &format!("bar:{bar}")]);
        assert_eq!(status, 0, "{err}");
        let chain = between(told, "<p style=\"margin-left:1em\">", "</p>").replace("&gt;", ">").replace("&lt;", "<");
        assert!(out.contains(" says yes\n") && out.contains(&chain), "{chain} is not in {out}");
    }
}

#[test]
fn values_stand_under_the_pointer() {
    let Some(program) = chromium() else { return };
    let folder = folder("report-pointer");
    let page = page(&folder, BUSY, &bars(300, 1_767_571_200_000, 100.0), &[]);
    let equity = between(&page, "\"points\":[[\"0, 2026-01-05 00:00\",", "]");
    let first: Vec<String> = serde_json::from_str(&format!("[{equity}]")).unwrap();
    let point = r#"<script>window.addEventListener('load', () => {
      const svg = document.querySelectorAll('.chart svg')[1], box = svg.getBoundingClientRect();
      svg.dispatchEvent(new PointerEvent('pointermove', { clientX: box.left + 2, clientY: box.top + 20 }));
      document.body.dataset.said = document.querySelector('.under-pointer').textContent.replaceAll('\n', '|');
    });</script></body>"#;
    let path = folder.join("pointed.html");
    fs::write(&path, page.replace("</body>", point)).unwrap();
    let dom = browse(&program, &folder, &["--dump-dom", &format!("file://{}", path.display())]);
    let said = between(&dom, "data-said=\"", "\"");
    assert_eq!(said, format!("bar 0, 2026-01-05 00:00|close {}|equity {}|drawdown {}", first[0], first[1], first[2]));
}
