//! `ysh holdup` from outside: boxes and their verdicts, what a folder leaves out, capacitors, limits, this year against next.

mod common;

use std::fs;
use std::path::Path;

use common::{folder, ysh, STRATEGY};
use serde_json::Value;

const FLASH: [&str; 8] = ["--page", "256", "--page-time", "0.7ms", "--before", "0.1ms", "--call", "50us"];
const SUPPLY: [&str; 6] = ["--power", "2.5W", "--drop-voltage", "12V", "--lowest-voltage", "6V"];

/// A strategy that looks so many bars back, and needs as many rows and one more; 4 at least.
fn put(folder: &Path, name: &str, back: usize) -> String {
    let path = folder.join(name);
    fs::write(&path, STRATEGY.replace("14]", &format!("{back}]"))).unwrap();
    path.to_str().unwrap().to_owned()
}

fn holdup(arguments: &[&str]) -> (u8, String, String) {
    ysh(&[&["holdup"], arguments, &FLASH].concat())
}

fn json(arguments: &[&str]) -> Value {
    serde_json::from_str(&holdup(&[arguments, &["--json"]].concat()).1).unwrap()
}

/// 61 rows: 20 programs of 0.7 ms and 0.15 ms are 14.15 ms. Two such clients: 28.15 ms.
#[test]
fn the_verdict_is_on_the_box() {
    let folder = folder("holdup-box");
    let (a, b) = (put(&folder, "a.json", 60), put(&folder, "b.json", 60));
    let first = |arguments: &[&str]| {
        let (status, out, _) = holdup(arguments);
        (status, out.lines().next().unwrap().to_owned())
    };
    let fits = "the box fits with 0.850 ms to spare; 1 dump takes 14.150 ms, and there are 15 ms";
    assert_eq!(first(&[&a, "--have", "15ms"]), (0, fits.to_owned()));
    let short = "the box does not fit: 13.150 ms short; 2 dumps one after another take 28.150 ms, and there are 15 ms";
    assert_eq!(first(&[&a, &b, "--have", "15ms"]), (3, short.to_owned()));
    assert_eq!(first(&[&a, &b, "--have", "28.15ms"]).0, 0);
    assert_eq!(first(&[&a, &b, "--have", "28.149ms"]).0, 3);
    assert_eq!(first(&[&a, &b]), (0, "the box takes 28.150 ms: 2 dumps one after another".to_owned()));
    let (status, out, _) = holdup(&["--box", &format!("A={a}"), "--box", &format!("B={a},{b}"), "--have", "15ms"]);
    assert_eq!((status, out.lines().next().unwrap()), (3, "1 of 2 boxes does not fit in 15 ms: B"));
    assert!(out.contains("  A        1        20   14.150  fits with 0.850 ms to spare"), "{out}");
    assert!(out.contains("  B        2        40   28.150  does not fit: 13.150 ms short"), "{out}");
    // A file that is not answered: the box is not said to fit.
    let (status, out, _) = holdup(&[&a, "/nowhere.json", "--have", "15ms"]);
    assert!(status == 2 && out.starts_with("the box is not answered: 1 file of it is missing"), "{out}");
    assert_eq!(json(&[&a, "/nowhere.json", "--have", "15ms"])["boxes"][0]["fits"], Value::Null);
    assert_eq!(holdup(&[&a, &b, "/nowhere.json", "--have", "15ms"]).0, 3);
    // Each file a box of its own.
    let (status, out, _) = holdup(&[&a, &b, "--dumps", "2", "--have", "28.15ms"]);
    assert!(status == 0 && out.starts_with("2 files all fit in 28.15 ms, each a box of its own"), "{out}");
}

#[test]
fn the_longest_times_decide() {
    let folder = folder("holdup-most");
    let a = put(&folder, "a.json", 60);
    // 20 programs of 3 ms, the commit's among them; 19 and one again of 3 ms, a commit of 0.2 ms, 5 ms to erase; a tenth on it.
    let told = json(&[&a, "--page-time-most", "3ms"]);
    assert_eq!((&told["boxes"][0]["total_ms"], &told["boxes"][0]["typical_ms"]), (&60.15.into(), &14.15.into()));
    let more = ["--page-time-most", "3ms", "--retries", "1", "--commit-time", "0.2ms", "--erase-time", "5ms"];
    let told = json(&[&[&a[..]], &more[..], &["--margin", "10%"]].concat());
    assert_eq!(told["boxes"][0]["total_ms"], 71.885);
    let (_, out, _) = holdup(&[&[&a[..]], &more[..], &["--margin", "10%", "--have", "80ms"]].concat());
    for part in [
        "writing  = (pages + repeated) · time a page + commit + erasing = (19 + 1) · 3 + 0.2 + 5 = 65.200 ms",
        "= (0.05 + 0.1 + 1 · 65.2) · 1.1 = 71.885 ms",
        "⌊(share − repeated · time a page − commit − erasing) / time a page⌋",
    ] {
        assert!(out.contains(part), "{part:?} is not in {out}");
    }
    for (commit, programs) in [("mark", 20), ("page", 19), ("seal", 20)] {
        assert_eq!(json(&[&a, "--commit", commit])["files"][0]["programs"], programs);
    }
    let rate = ["holdup", &a, "--rate", "1MB/s", "--commit-time", "0.5ms", "--json"];
    let told: Value = serde_json::from_str(&ysh(&rate).1).unwrap();
    assert_eq!(told["files"][0]["writing_ms"], 5.148);
    assert!(ysh(&["holdup", &a, "--rate", "1MB/s"]).1.contains("no time was given for it, and 0 ms are counted"));
}

/// At the start an image is consumed by a program of its own: 0.7 ms where the longest call takes 0.05.
#[test]
fn what_ends_first_is_the_longer_one() {
    let folder = folder("holdup-consume");
    let a = put(&folder, "a.json", 60);
    let told = json(&[&a, "--consume", "0.7ms"]);
    assert_eq!((&told["boxes"][0]["total_ms"], &told["consume_ms"]), (&Value::from(14.8), &Value::from(0.7)));
    let (status, out, _) = holdup(&[&a, "--consume", "0.7ms", "--have", "14.8ms"]);
    assert!(status == 0 && out.contains("the program that does so takes 0.7 ms; it decides"), "{out}");
    assert_eq!(holdup(&[&a, "--consume", "0.7ms", "--have", "14.799ms"]).0, 3);
    let (_, out, _) = holdup(&[&a, "--consume", "0.05ms", "--have", "14.15ms"]);
    assert!(
        out.starts_with("the box fits with 0.000 ms to spare") && out.contains("the longest call decides"),
        "{out}"
    );
}

#[test]
fn a_folder_says_what_it_left_out() {
    let folder = folder("holdup-folder");
    let a = put(&folder, "a.json", 60);
    put(&folder, "MA2.JSON", 60);
    fs::create_dir(folder.join("below")).unwrap();
    put(&folder.join("below"), "c.json", 60);
    std::os::unix::fs::symlink("/nowhere", folder.join("dead.json")).unwrap();
    let place = folder.to_str().unwrap();
    let table = folder.join("a.rtb").to_str().unwrap().to_owned();
    assert_eq!(ysh(&["compile", &a, "-o", &table]).0, 0);
    let (_, out, _) = holdup(&[place]);
    for part in [
        "MA2.JSON: left out: its ending is neither .json nor .rtb",
        "dead.json: left out: a link to nothing",
        "below: left out: a folder (--recursive reads it too)",
        "a.json: left out: ",
        "a.rtb is the same client, and is counted once",
    ] {
        assert!(out.contains(part), "{part:?} is not in {out}");
    }
    assert!(out.starts_with("the box takes 14.150 ms: 1 dump"), "{out}");
    let (_, out, _) = holdup(&[place, "--recursive"]);
    assert!(out.starts_with("the box takes 28.150 ms: 2 dumps"), "{out}");
    // Without settings the table's sizing is not known, and the strategy is kept.
    fs::remove_file(format!("{table}.settings.json")).unwrap();
    let (_, out, _) = holdup(&[place]);
    assert!(out.contains("a.rtb: left out: ") && out.starts_with("the box takes 14.150 ms"), "{out}");
    // Alone it is marked in its row, and on the first line.
    let (status, out, _) = holdup(&[&table]);
    assert!(status == 0 && out.starts_with("WARNING  "), "{out}");
    assert!(out.contains("a.rtb (sizing not known: D may be too small)"), "{out}");
    assert_eq!(holdup(&[&table, "--strict"]).0, 2);
    // By another name it is another client, and that is said.
    fs::rename(&table, folder.join("z.rtb")).unwrap();
    let (_, out, _) = holdup(&[place]);
    assert!(out.contains("which has the same rules by another name") && out.contains("28.150 ms: 2 dumps"), "{out}");
    fs::create_dir(folder.join("empty")).unwrap();
    assert_eq!(holdup(&[folder.join("empty").to_str().unwrap()]).0, 2);
}

/// 1,000 µF from 12 V to 6 V give ½ · 0.001 · (144 − 36) = 0.054 J: at 2.5 W 21.6 ms.
#[test]
fn a_capacitor_gives_a_time() {
    let folder = folder("holdup-capacitor");
    let (a, b) = (put(&folder, "a.json", 60), put(&folder, "b.json", 100));
    let (status, out, _) = holdup(&[&[&a[..], &b, "--capacitance", "1000uF"], &SUPPLY[..]].concat());
    assert_eq!(status, 3);
    assert!(out.contains("there is 1.000 mF: 21.600 ms of hold-up time"), "{out}");
    assert!(out.contains("there is = C · (V0² − V1²) · (1 − tolerance) · (1 − age) / (2 · P)"), "{out}");
    // 21.6 − 0.15 − 0.7 = 20.75 ms are 29 pages, 7,424 bytes: with K 2 (7,424 − 256) / 72 = 99 rows, with K 0 7,168 / 56 = 128.
    let told = json(&[&[&a[..], &b, "--capacitance", "1000uF"], &SUPPLY[..]].concat());
    assert_eq!((&told["have_ms"], &told["limits"][2]["rows"]), (&21.6.into(), &99.into()));
    assert_eq!((&told["limits"][0]["rows"], told["limits"].as_array().unwrap().len()), (&128.into(), 65));
    assert_eq!((&told["files"][0]["fits"], &told["files"][1]["fits"]), (&true.into(), &false.into()));
    // The other way round: 21.6 ms need 1,000 µF; with a converter of 80% 1,250; with 1.2 ohms 21.6 / 19.25 of it.
    let need = |more: &[&str]| {
        json(&[&[&a[..], "--have", "99ms"], &SUPPLY[..], more].concat())["worst"]["capacitance_f"].as_f64().unwrap()
    };
    let near = |x: f64, y: f64| (x - y).abs() < 1e-9;
    let plain = 14.15e-3 * 2.0 * 2.5 / 108.0;
    assert!(near(need(&[]), plain) && near(need(&["--efficiency", "80%"]), plain / 0.8));
    assert!(
        near(need(&["--esr", "1.2ohm"]), plain * 108.0 / 96.25) && near(need(&["--temperature", "10%"]), plain / 0.9)
    );
    let (_, out, _) = holdup(&[&[&a[..], "--efficiency", "80%", "--esr", "1.2ohm"], &SUPPLY[..]].concat());
    for part in [
        "2.5 W at the load, behind a converter of 80%, from 12 V down to 6 V, 1.2 ohm in series",
        "P           = power at the load / efficiency = 2.5 / 0.8 = 3.125 W",
        "lost        = ESR · P / V1, from the start on = 1.2 · 3.125 / 6 = 0.625 V",
        "((12 − 0.625)² − 6²) V²",
        "sold as     = the next value of E12, of E6",
    ] {
        assert!(out.contains(part), "{part:?} is not in {out}");
    }
    let (status, _, err) = holdup(&[&[&a[..], "--esr", "100ohm"], &SUPPLY[..]].concat());
    assert!(status == 2 && err.contains("--esr: it loses 41.667 V, which leaves nothing"), "{err}");
    assert_eq!(holdup(&[&a, "--limits"]).0, 2);
}

#[test]
fn this_year_against_next() {
    let folder = folder("holdup-against");
    let (old, new) = (folder.join("old"), folder.join("new"));
    fs::create_dir(&old).unwrap();
    fs::create_dir(&new).unwrap();
    put(&old, "a.json", 60);
    put(&new, "a.json", 100);
    put(&old, "gone.json", 10);
    put(&new, "fresh.json", 10);
    let paths = [old.to_str().unwrap(), "--against", new.to_str().unwrap()];
    let (status, out, _) = holdup(&paths);
    // 31 programs for 20 now: 7.7 ms more than the box of before took.
    assert_eq!(status, 3, "{out}");
    assert!(out.starts_with("the box does not fit: 7.700 ms short"), "{out}");
    assert!(out.contains("what the clients of before take"), "{out}");
    assert!(out.contains("1 client needs more, 1 new, 1 gone") && out.contains("7.700 ms more"), "{out}");
    assert_eq!(holdup(&[&paths[..], &["--have", "40ms"]].concat()).0, 0);
    let told = json(&paths);
    assert_eq!(told["against"]["clients"][0]["rows_before"], 61);
    assert_eq!(told["against"]["clients"][0]["rows_now"], 101);
}

/// What a sheet is found again by.
#[test]
fn the_sheet_says_what_was_read() {
    let folder = folder("holdup-sheet");
    let a = put(&folder, "a.json", 60);
    let html = folder.join("page.html");
    let from = ["--call-from", "examples/c/longest on box 7"];
    assert_eq!(holdup(&[&[&a[..], "--html", html.to_str().unwrap(), "--have", "15ms"], &from[..]].concat()).0, 0);
    let page = fs::read_to_string(&html).unwrap();
    let told = json(&[&a]);
    let hash = told["files"][0]["sha256"][0]["sha256"].as_str().unwrap();
    let library = told["library_sha256"].as_str().unwrap();
    assert!(hash.len() == 64 && library.len() == 64);
    for part in [
        hash,
        library,
        "ysh holdup",
        "UTC",
        "longest on box 7",
        "does not count it",
        "docs/FLASH.md",
        concat!("ysh ", env!("CARGO_PKG_VERSION")),
    ] {
        assert!(page.contains(part), "{part:?} is not on the page");
    }
    let verdict = page.find("the box fits with 0.850 ms to spare").unwrap();
    assert!(verdict < page.find("pages of 256 bytes").unwrap());
}
