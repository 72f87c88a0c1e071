//! `ysh dump` from outside: an image is shown, cut and gone on from, and the run that goes on is the unbroken one.

mod common;

use std::fs;
use std::path::Path;

use common::{folder, ysh};

/// The example's day and one of its strategies.
fn files(rules: &str) -> [String; 2] {
    let root = Path::new(env!("CARGO_MANIFEST_DIR")).join("../../examples");
    let at = |name: String| root.join(name).to_str().unwrap().to_owned();
    [at(format!("strategies/{rules}.json")), at("bars/day.csv".to_owned())]
}

fn done(arguments: &[&str]) -> String {
    let (status, out, err) = ysh(arguments);
    assert!(status == 0 && err.lines().all(|line| line.contains(": note: ")), "{arguments:?}: {err}");
    out
}

/// Trades and equity of a run as lines, the first lines with the names left out.
fn lines(folder: &Path, arguments: &[&str]) -> [Vec<String>; 2] {
    let paths = ["trades.csv", "equity.csv"].map(|name| folder.join(name).to_str().unwrap().to_owned());
    done(&[arguments, &["--trades", &paths[0], "--equity", &paths[1]]].concat());
    paths.map(|path| fs::read_to_string(path).unwrap().lines().skip(1).map(str::to_owned).collect())
}

/// What goes on after an image is the end of the unbroken run: its last points, and the trades that were closed after.
#[test]
fn going_on_is_the_unbroken_run() {
    let folder = folder("dump-resume");
    let image = folder.join("image").to_str().unwrap().to_owned();
    for rules in ["crossover", "breakout", "hour"] {
        let [strategy, bars] = files(rules);
        let [trades, equity] = lines(&folder, &["run", &strategy, &bars]);
        for at in [0, 1, 29, 60, 251, 300, 700, 871, 1000, 1333, 1438, 1439] {
            done(&["dump", "take", &strategy, &bars, "--at", &format!("bar:{at}"), "-o", &image]);
            let [later, points] = lines(&folder, &["dump", "resume", &image, &strategy, &bars]);
            assert_eq!(points, equity[at + 1..], "{rules} after bar {at}");
            let time: i64 = equity[at].split(',').next().unwrap().parse().unwrap();
            // Finish closes what is open after the last bar, at that bar's own time.
            let after = |line: &&String| {
                let cells: Vec<&str> = line.split(',').collect();
                cells[1].parse::<i64>().unwrap() > time || cells[7] == "end"
            };
            assert_eq!(
                later.iter().collect::<Vec<_>>(),
                trades.iter().filter(after).collect::<Vec<_>>(),
                "{rules} after {at}"
            );
        }
    }
}

/// A file of the later bars alone does as well, and one that has not the bar that was seen last is told.
#[test]
fn the_rest_of_the_bars() {
    let folder = folder("dump-rest");
    let [strategy, bars] = files("breakout");
    let at = |name: &str| folder.join(name).to_str().unwrap().to_owned();
    let (image, rest) = (at("image"), at("rest.csv"));
    done(&["dump", "take", &strategy, &bars, "--at", "700", "-o", &image]);
    let text = fs::read_to_string(&bars).unwrap();
    let later: Vec<&str> =
        text.lines().enumerate().filter(|(n, _)| *n == 0 || *n > 701).map(|(_, line)| line).collect();
    fs::write(&rest, later.join("\n")).unwrap();
    let whole = lines(&folder, &["dump", "resume", &image, &strategy, &bars]);
    assert_eq!(lines(&folder, &["dump", "resume", &image, &strategy, &rest, "--rest"]), whole);
    let (status, out, err) = ysh(&["dump", "resume", &image, &strategy, &rest]);
    assert_eq!((status, out.as_str(), err.lines().count()), (2, "", 1), "{err}");
    assert!(err.contains("none of its bars is the one that was seen last, with the time 1767613200000"), "{err}");
}

#[test]
fn an_image_in_words() {
    let folder = folder("dump-show");
    let [strategy, bars] = files("breakout");
    let image = folder.join("image").to_str().unwrap().to_owned();
    let out = done(&["dump", "take", &strategy, &bars, "--at", "300", "-o", &image]);
    assert!(out.ends_with("image: 2,488 bytes, after 301 bars\n"), "{out}");
    let out = done(&["dump", "show", &image]);
    for part in [
        "image    2,488 bytes, whole: D 31, 2 slots\n",
        "bars     301 seen, the last at 2026-01-05 05:00 with the close 3,371.77\n",
        "position long 3.0074 entered at ",
        "order    none\n",
        "rows     31 of 31, the last of them\n",
    ] {
        assert!(out.contains(part), "{part:?} is not in {out}");
    }
}

/// Every cut is refused but the whole.
#[test]
fn a_cut_image() {
    let folder = folder("dump-cut");
    let [strategy, bars] = files("crossover");
    let at = |name: &str| folder.join(name).to_str().unwrap().to_owned();
    let (image, left) = (at("image"), at("left"));
    done(&["dump", "take", &strategy, &bars, "--at", "1", "-o", &image]);
    let size = fs::read(&image).unwrap().len() as u64;
    assert_eq!(size, 472);
    for bytes in 0..=size {
        let out = done(&["dump", "cut", &image, "--bytes", &bytes.to_string(), "-o", &left]);
        let whole = bytes == size;
        assert_eq!(out.contains("\nread     whole: a box goes on from it\n"), whole, "{bytes}: {out}");
        assert_eq!(out.contains("\nread     refused 19 at 0: "), !whole, "{bytes}: {out}");
        assert_eq!(fs::read(&left).unwrap() == fs::read(&image).unwrap(), whole);
    }
    let out = done(&["dump", "cut", &image, "--bytes", "100"]);
    assert!(
        out.contains("rows     100 of 216 bytes: 1 whole row and a part of the next\nheader   0 of 253 bytes\n"),
        "{out}"
    );
}

#[test]
fn what_is_no_image_is_told_in_a_line() {
    let folder = folder("dump-none");
    let [strategy, bars] = files("crossover");
    let at = |name: &str| folder.join(name).to_str().unwrap().to_owned();
    let image = at("image");
    done(&["dump", "take", &strategy, &bars, "--at", "5", "-o", &image]);
    let good = fs::read(&image).unwrap();
    let changed = |place: usize, byte: u8| {
        let mut bytes = good.clone();
        bytes[place] = byte;
        bytes
    };
    for (name, bytes, part) in [
        ("empty", Vec::new(), "it has 0 bytes, and its header alone is 256: refused 19 at 0"),
        ("mark", changed(0, b'X'), "its first three bytes are not WDP: refused 19 at 0"),
        (
            "unmarked",
            [&[0; 3][..], &good[3..]].concat(),
            "its mark is not written: the supply was lost before the last byte",
        ),
        ("version", changed(4, 2), "its version is 2, and 1 was expected"),
        ("short", good[..471].to_vec(), "it has 471 bytes; with its D of 3 and K of 2 472 were expected"),
    ] {
        let file = at(name);
        fs::write(&file, bytes).unwrap();
        for command in [
            vec!["dump", "show", &file],
            vec!["dump", "cut", &file, "--bytes", "7"],
            vec!["dump", "resume", &file, &strategy, &bars],
        ] {
            let (status, out, err) = ysh(&command);
            assert_eq!((status, out.as_str(), err.lines().count()), (1, "", 1), "{err}");
            assert!(err.contains(part), "{name}: {err}");
        }
    }
    let [other, _] = files("breakout");
    let (status, _, err) = ysh(&["dump", "resume", &image, &other, &bars]);
    assert!(
        status == 1 && err.contains("refused 20 at 0: the image has another D or K than table and settings"),
        "{err}"
    );
    let (status, _, err) = ysh(&["dump", "show", &at("nowhere")]);
    assert!(
        status == 2 && err.contains("cannot be read: No such file") && err.contains("an image was expected"),
        "{err}"
    );
}
