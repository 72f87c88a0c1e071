//! The program from outside: what each command writes, one line for bad input, and the exit statuses.

mod common;

use std::fs;
use std::path::Path;

use common::{folder, ysh, STRATEGY};

fn put(folder: &Path, name: &str, text: impl AsRef<[u8]>) -> String {
    let path = folder.join(name);
    fs::write(&path, text).unwrap();
    path.to_str().unwrap().to_owned()
}

/// Nothing on standard output, and one line, with these parts, on standard error.
fn one_line(arguments: &[&str], status: u8, parts: &[&str]) {
    let (found, out, err) = ysh(arguments);
    assert_eq!((found, out.as_str()), (status, ""), "{arguments:?}: {err}");
    assert_eq!(err.lines().count(), 1, "{err}");
    assert!(err.starts_with("ysh: "), "{err}");
    for part in parts {
        assert!(err.contains(part), "{part:?} is not in {err}");
    }
}

#[test]
fn a_strategy_is_compiled_and_its_slots_are_told() {
    let folder = folder("cli-compile");
    let strategy = put(&folder, "s.json", STRATEGY);
    let (table, words) = (folder.join("s.rtb"), folder.join("s.words"));
    let (status, out, err) = ysh(&[
        "compile",
        &strategy,
        "-o",
        table.to_str().unwrap(),
        "--words",
        words.to_str().unwrap(),
        "--capital",
        "500",
    ]);
    assert_eq!((status, err.as_str()), (0, ""));
    assert!(
        out.contains(
            "11 nodes, 2 slots\nwindow 15 rows, 1,080 bytes; dump 1,336 bytes\nslot  0  fast\nslot  1  slow\n"
        ),
        "{out}"
    );
    assert_eq!(fs::read(&table).unwrap().len(), 16 + 16 * 11);
    let settings = fs::read_to_string(folder.join("s.rtb.settings.json")).unwrap();
    assert!(settings.contains("\"depth\": 15") && settings.contains("\"capital\": 500.0"), "{settings}");
    let words = fs::read(&words).unwrap();
    assert_eq!((words.len(), words[0], words[8], words[24]), (256, 2, 15, 26));
    assert_eq!(words[16..24], 500f64.to_le_bytes());
}

#[test]
fn a_table_is_told_by_the_settings_beside_it() {
    let folder = folder("cli-settings");
    let strategy = put(
        &folder,
        "s.json",
        STRATEGY.replace(r#""fixed_qty", "qty": 1"#, r#""vol_target", "target_vol": 0.01, "lookback": 40"#),
    );
    let table = folder.join("s.rtb").to_str().unwrap().to_owned();
    assert_eq!(ysh(&["compile", &strategy, "-o", &table]).0, 0);
    let (status, out, err) = ysh(&["depth", &table]);
    assert_eq!((status, err.as_str()), (0, ""));
    assert!(out.contains("41  2     2,952   3,208  volatility lookback 40; the rules reach 14 bars back"), "{out}");
    assert!(ysh(&["show", &table]).1.contains("crosses above"));
    assert!(ysh(&["show", "--json", &table]).1.contains("\"lookback\": 40"));
    let beside = format!("{table}.settings.json");
    let text = fs::read_to_string(&beside).unwrap();
    fs::write(&beside, text.replace("\"depth\": 41", "\"depth\": 50")).unwrap();
    assert!(ysh(&["depth", &table]).1.contains("the settings beside it say 50; 41 rows would do"));
    fs::write(&beside, text.replace("\"depth\": 41", "\"depth\": 40")).unwrap();
    one_line(&["depth", &table], 2, &["settings.json: depth: 40; the 41 that table and sizing need"]);
    fs::write(&beside, text.replace("\"fast\",", "")).unwrap();
    one_line(&["depth", &table], 2, &["settings.json: slots: 1 names"]);
    fs::write(&beside, text.replace("\"depth\"", "\"deph\"")).unwrap();
    one_line(
        &["depth", &table],
        2,
        &["settings.json: line 6 column", "unknown field `deph`, expected one of `slots`, `depth`"],
    );
    fs::remove_file(&beside).unwrap();
    let (status, out, err) = ysh(&["depth", &table]);
    assert!(status == 0 && out.contains("15  2") && out.contains("(sizing not known)") && err.is_empty(), "{out}{err}");
    assert!(out.starts_with("WARNING  ") && out.contains("sizing is taken to be no volatility target"), "{out}");
    one_line(&["depth", &table, "--strict"], 2, &["there is no ", "so D may be too small (--strict)"]);
    assert!(ysh(&["depth", &table, "--lookback", "40"]).1.contains("41  2"));
}

#[test]
fn what_falls_silent_is_named() {
    let folder = folder("cli-short");
    let strategy = put(&folder, "s.json", STRATEGY);
    let (status, out, _) = ysh(&["short", &strategy, "--rows", "3"]);
    assert_eq!(status, 0);
    assert!(out.contains("over 3 rows 2 of 3 tests fall silent (it needs 15)"), "{out}");
    assert!(out.contains("entry node 4: close > high 14 bars before needs 15 rows; it answers no\n"), "{out}");
    assert!(out.contains(
        "exit node 9: close rising over 3 bars needs 4 rows; it answers no, which the Not above it turns into a yes\n"
    ));
    assert!(ysh(&["short", &strategy, "--rows", "15"]).1.contains("no test falls silent"));
}

#[test]
fn the_question_is_answered() {
    let folder = folder("cli-holdup");
    let deep = put(&folder, "deep.json", STRATEGY.replace("14]", "60]"));
    put(&folder, "flat.json", STRATEGY.replace("14]", "1]"));
    let asked = [
        "holdup",
        folder.to_str().unwrap(),
        "--page",
        "256",
        "--page-time",
        "0.7ms",
        "--before",
        "0.1ms",
        "--call",
        "50us",
    ];
    let supply =
        ["--power", "2.5W", "--drop-voltage", "12V", "--lowest-voltage", "6V", "--tolerance", "20%", "--age", "20%"];
    let (status, out, err) = ysh(&[&asked[..], &supply, &["--have", "11ms"]].concat());
    assert_eq!((status, err.as_str()), (3, ""));
    assert!(
        out.starts_with("the box does not fit: 5.950 ms short; 2 dumps one after another take 16.950 ms, and"),
        "{out}"
    );
    for part in [
        "time        = longest call + before the first byte + dumps · writing = 0.05 + 0.1 + 1 · 14 = 14.150 ms",
        "programs    = pages + the header's first 8 bytes by themselves = 19 + 1 = 20 programs",
        "= 1.024 mF",
        "1 of 2 files fit in 11 ms",
        "it needs 61 rows, and 46 would fit; 1 test falls silent in that window",
        "entry node 4: close > high 60 bars before needs 61 rows; it answers no",
        "dump        = 256 + D · 8 · (7 + K) = 256 + 61 · 8 · (7 + 2) = 4,648 bytes",
    ] {
        assert!(out.contains(part), "{part:?} is not in {out}");
    }
    let (status, out, _) = ysh(&[&asked[..], &supply, &["--have", "14ms", "--json"]].concat());
    let json: serde_json::Value = serde_json::from_str(&out).unwrap();
    assert_eq!((status, &json["worst"]["file"], &json["worst"]["total_ms"]), (3, &deep.into(), &14.15.into()));
    assert_eq!(
        (&json["files"][0]["fits"], &json["files"][0]["programs"], &json["files"][0]["rows"]),
        (&false.into(), &20.into(), &61.into())
    );
    let (_, out, _) = ysh(&[&asked[..], &["--dumps", "3", "--have", "14ms"]].concat());
    assert!(out.contains("0.05 + 0.1 + 3 · 14 = 42.150 ms") && out.contains("(14 − 0.05 − 0.1) / 3"), "{out}");
    let (_, out, _) = ysh(&["holdup", folder.to_str().unwrap(), "--rate", "1MB/s"]);
    assert!(out.contains("writing = dump / bytes a second + commit = 4,648 / 1,000,000 + 0 = 4.648 ms"), "{out}");
}

#[test]
fn what_has_no_counterpart_is_refused_by_its_path_and_name() {
    let folder = folder("cli-lacking");
    for (part, path, name) in [
        (r#""costs": {"slippage": {"type": "spread"}}"#, "costs.slippage.type", "\"spread\""),
        (r#""execution": {"fill_timing": "close"}"#, "execution.fill_timing", "\"close\""),
    ] {
        let file = put(&folder, "s.json", STRATEGY.replace("\"warmup\": 26", &format!("\"warmup\": 26, {part}")));
        for command in [vec!["depth", &file], vec!["show", &file], vec!["compile", &file, "-o", "/nowhere/t"]] {
            one_line(&command, 2, &[&file, path, name, "no counterpart here"]);
        }
    }
}

/// Words 20 to 24 of the settings, and what `show` says of them.
#[test]
fn entries_by_their_order_kind() {
    let folder = folder("cli-entries");
    let at = |name: &str| folder.join(name).to_str().unwrap().to_owned();
    for (part, wanted, shown, note) in [
        ("{}", (0, 0.0, 0.0), "entries  market orders\n", true),
        (
            r#"{"order_type": "limit", "limit_offset_pct": -0.5, "stop_offset_pct": 9}"#,
            (1, -0.5, 0.0),
            "entries  limit orders 0.5% under the deciding close, maker fee 2.5 bps\n",
            false,
        ),
        (
            r#"{"order_type": "stop", "limit_offset_pct": 9, "stop_offset_pct": 1.5}"#,
            (2, 1.5, 0.0),
            "entries  stop orders 1.5% over the deciding close\n",
            true,
        ),
        (
            r#"{"order_type": "stop_limit", "limit_offset_pct": 3, "stop_offset_pct": 0}"#,
            (3, 0.0, 3.0),
            "entries  stop-limit orders, the stop at the deciding close, the limit 3% over the deciding close\n",
            true,
        ),
    ] {
        let more = format!("\"warmup\": 26, \"costs\": {{\"maker_bps\": 2.5}}, \"execution\": {part}");
        let file = put(&folder, "s.json", STRATEGY.replace("\"warmup\": 26", &more));
        let (table, words) = (at("s.rtb"), at("s.words"));
        let (status, _, err) = ysh(&["compile", &file, "-o", &table, "--words", &words, "--lot", "0.25"]);
        assert_eq!((status, err.contains("costs.maker_bps: the maker fee: only a limit order's entry")), (0, note));
        let words = fs::read(&words).unwrap();
        let word = |n: usize| u64::from_le_bytes(words[8 * n..8 * n + 8].try_into().unwrap());
        let float = |n: usize| f64::from_bits(word(n));
        assert_eq!((word(20), float(21), float(22), float(23), float(24)), (wanted.0, wanted.1, wanted.2, 2.5, 0.25));
        assert!(ysh(&["show", &file]).1.contains(shown), "{}", ysh(&["show", &file]).1);
        let lots = shown.replace('\n', "; whole lots of 0.25\n");
        assert!(ysh(&["show", &table]).1.contains(&lots), "{}", ysh(&["show", &table]).1);
        assert!(ysh(&["show", "--json", &table]).2.contains("compile this with --lot 0.25"));
    }
}

#[test]
fn a_limit_of_tables_names_the_rule_that_breaks_it() {
    let folder = folder("cli-limits");
    let with_entry = |entry: &str| {
        let start = STRATEGY.find("\"entry\"").unwrap();
        let end = STRATEGY.find("\"exit\"").unwrap();
        put(&folder, "s.json", format!("{}\"entry\": {entry},\n  {}", &STRATEGY[..start], &STRATEGY[end..]))
    };
    let deep = (0..32).fold("{\"in_position\": true}".to_owned(), |inner, _| format!("{{\"not\": {inner}}}"));
    let path = format!("entry{}", ".not".repeat(32));
    one_line(&["depth", &with_entry(&deep)], 1, &[&path, "nested deeper than 32 levels", "refused 8 at 32"]);
    let many = vec!["{\"in_position\": true}"; 300].join(",");
    let file = with_entry(&format!("{{\"all\": [{many}]}}"));
    one_line(&["depth", &file], 1, &["entry.all[255]", "304 nodes", "at most 256", "refused 4 at 0"]);
    let far = r#"{"any": [{"rising": ["fast", 4096]}]}"#;
    one_line(&["depth", &with_entry(far)], 1, &["entry: ", "looks back more than 4,095 bars", "refused 9 at 0"]);
    let names: Vec<String> = (0..65).map(|n| format!("{{\"gt\": [\"fast.{n:02}\", 0]}}")).collect();
    let file = with_entry(&format!("{{\"all\": [{}]}}", names.join(",")));
    one_line(&["depth", &file], 1, &["\"fast.64\"", "read 65 slots", "at most 64", "refused 4 at 0"]);
    let target = STRATEGY.replace(r#""fixed_qty", "qty": 1"#, r#""vol_target", "target_vol": 0.01, "lookback": 5000"#);
    one_line(&["depth", &put(&folder, "s.json", target)], 1, &["sizing.lookback, 5000", "refused 12 at 7"]);
}

#[test]
fn bad_files_get_one_line() {
    let folder = folder("cli-files");
    let at = |name: &str| folder.join(name).to_str().unwrap().to_owned();
    one_line(&["depth", &at("none.json")], 2, &["none.json: cannot be read: No such file"]);
    one_line(&["show", &at("")], 2, &["cannot be read: Is a directory"]);
    one_line(&["depth", &at("")], 2, &["no file in it ends in .json or .rtb"]);
    one_line(&["show", &put(&folder, "a.json", "")], 2, &["a.json: line 1: the file is empty"]);
    one_line(
        &["show", &put(&folder, "a.json", "{\"symbol\": 5")],
        2,
        &["a.json: line 1 column 12, symbol: invalid type: integer `5`"],
    );
    one_line(&["show", &put(&folder, "a.json", "hello")], 2, &["a.json: line 1 column 1: a value was expected"]);
    one_line(&["show", &put(&folder, "a.json", b"\xff\x00")], 2, &["a.json: byte 0: no UTF-8 text and no rule table"]);
    one_line(&["show", &put(&folder, "a.json", STRATEGY.replace("\"fast\", \"slow\"]", "\"fats\", \"slow\"]"))], 2, &[
        "entry.all[0].cross_above[0]: \"fats\": no indicator \"fats\" is declared in indicators (declared are fast, slow)",
    ]);
    let file = put(&folder, "a.json", STRATEGY.replace("\"warmup\": 26", "\"ref_symbol\": null"));
    one_line(&["compile", &file, "-o", &at("t")], 2, &["a.json: warmup:", "--warmup BARS was expected"]);
    one_line(&["show", &put(&folder, "a.rtb", b"RTB")], 1, &["a.rtb: refused 1 at 0: the table is under 16 bytes"]);
    one_line(
        &["show", &put(&folder, "b.rtb", [7; 40])],
        1,
        &["b.rtb: refused 2 at 0: the first three bytes are not RTB"],
    );
    let mut table = b"RTB\x00\x01\x00\x02\x00\x01\x00\x01\x00\x00\x00\x00\x00".to_vec();
    table.extend([27; 32]);
    one_line(
        &["show", &put(&folder, "c.rtb", &table)],
        1,
        &["c.rtb: refused 6 at 0 (node 0): a node's own bytes are wrong; commonly: a kind"],
    );
    let good = put(&folder, "s.json", STRATEGY);
    one_line(&["compile", &good, "-o", &at("no/such/folder")], 2, &["cannot be written: No such file"]);
    one_line(&["compile", &good, "-o", &good], 2, &["it is read by this command; another file was expected"]);
    one_line(&["compile", &good, "-o", &at("t"), "--warmup", "3"], 2, &["warmup: the strategy says 26 and --warmup 3"]);
    one_line(&["compile", &good, "-o", &at("t"), "--slots", "fast"], 2, &["--slots: \"slow\" is read by a rule"]);
    one_line(
        &["compile", &good, "-o", &at("t"), "--slots", "fast,slow,fast"],
        2,
        &["--slots: each name was expected once"],
    );
}

#[test]
fn bad_arguments_get_one_line() {
    let folder = folder("cli-arguments");
    let file = put(&folder, "s.json", STRATEGY);
    let flash = ["--page", "256", "--page-time", "1ms"];
    let holdup = |more: &[&'static str]| [&["holdup", &file[..]], more].concat();
    for (arguments, part) in [
        (
            holdup(&["--page", "-256", "--page-time", "1ms"]),
            "'-256' for '--page <BYTES>': a whole number of bytes from 1",
        ),
        (
            holdup(&["--page", "256", "--page-time", "-1ms"]),
            "'-1ms' for '--page-time <TIME>': a time from 0 up with its unit",
        ),
        (holdup(&["--page", "256", "--page-time", "0ms"]), "a time above 0 was expected"),
        (holdup(&["--page", "256"]), "the flash: --page with --page-time, or --rate, was expected"),
        (holdup(&[]), "the flash: --page with --page-time, or --rate, was expected"),
        (holdup(&["--rate", "many"]), "bytes a second from 1 up were expected"),
        (holdup(&["--rate", "1MB/s", "--page", "256"]), "'--rate <BYTES/S>' cannot be used with"),
        (holdup(&[&flash[..], &["--dumps", "0"]].concat()), "a whole number from 1"),
        (
            holdup(&[&flash[..], &["--have", "11"]].concat()),
            "a time from 0 up with its unit (s, ms, us, ns) was expected",
        ),
        (holdup(&[&flash[..], &["--power", "2"]].concat()), "a power above 0 with its unit (W, mW) was expected"),
        (holdup(&[&flash[..], &["--power", "2W"]].concat()), "--drop-voltage <VOLTAGE>"),
        (holdup(&[&flash[..], &["--age", "120%", "--power", "2W"]].concat()), "a percentage from 0 up and below 100"),
        (
            holdup(&[&flash[..], &["--power", "2W", "--drop-voltage", "5V", "--lowest-voltage", "5V"]].concat()),
            "--lowest-voltage: 5 V: less than the 5 V of --drop-voltage was expected",
        ),
        (
            vec!["short", &file, "--rows", "many"],
            "'many' for '--rows <N>': a whole number from 0 to 4,294,967,295 was expected",
        ),
        (vec!["short", &file], "--rows <N>"),
        (vec!["compile", &file, "-o", "t", "--capital", "NaN"], "a finite number was expected"),
        (vec!["compile", &file, "-o", "t", "--lot", "-1"], "'-1' for '--lot <SIZE>': a finite number from 0 up"),
        (vec!["frobnicate"], "(`ysh --help` has what there is)"),
        (vec!["holdup", &file, "--frob"], "(`ysh holdup --help` has what there is)"),
        (vec!["dump", "cut", "x", "--frob"], "(`ysh dump cut --help` has what there is)"),
    ] {
        one_line(&arguments, 2, &[part]);
    }
}

/// A bad file among good ones is told, the others are answered, and the answer says that one is missing.
#[test]
fn a_bad_file_among_good_ones() {
    let folder = folder("cli-mixed");
    put(&folder, "good.json", STRATEGY);
    put(&folder, "torn.json", &STRATEGY[..200]);
    let place = folder.to_str().unwrap();
    let (status, out, err) = ysh(&["depth", place]);
    assert!(
        status == 2 && out.contains("good.json") && err.lines().count() == 1 && err.contains("torn.json: line"),
        "{out}{err}"
    );
    let html = folder.join("page.html");
    let (status, out, _) = ysh(&["holdup", place, "--rate", "1MB/s", "--html", html.to_str().unwrap()]);
    assert!(status == 2 && out.contains("MISSING  1 file is not answered, and in none of these figures"), "{out}");
    assert!(fs::read_to_string(&html).unwrap().contains("<b>1 file was not answered</b>"));
    fs::remove_file(folder.join("torn.json")).unwrap();
    put(&folder, "refused.rtb", b"RTB");
    assert_eq!(ysh(&["depth", place]).0, 1);
}

#[test]
fn help_and_notes() {
    let (status, out, _) = ysh(&["holdup", "--help"]);
    assert!(status == 0 && out.contains("--page-time") && out.contains("--have"));
    assert_eq!(ysh(&["--version"]).0, 0);
    let folder = folder("cli-notes");
    let odd = STRATEGY.replace(
        "\"warmup\": 26",
        "\"warmup\": 26, \"risk\": {\"stop_los_pct\": 3}, \"execution\": {\"latency_bars\": 2}, \"short_entry\": {\"any\": []}",
    );
    let file = put(&folder, "s.json", odd);
    let (status, out, err) = ysh(&["depth", &file]);
    assert_eq!(status, 0);
    let first = format!("WARNING  {file}: risk.stop_los_pct: nothing reads this key, and it has no effect\n");
    assert!(out.starts_with(&first), "{out}");
    for command in [&["depth", &file[..], "--strict"][..], &["compile", &file, "-o", "/nowhere/t", "--strict"]] {
        one_line(command, 2, &["risk.stop_los_pct: nothing reads this key", "(--strict)"]);
    }
    for part in ["note: execution.latency_bars", "note: short_exit: the short exit"] {
        assert!(err.contains(part), "{part:?} is not in {err}");
    }
}
