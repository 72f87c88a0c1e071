//! Bad luck: full disks, outputs that are inputs, two runs onto one file, and texts that would steer a terminal. Nothing is lost, and nothing
//! is forged.

mod common;

use std::fs::{self, File};
use std::path::{Path, PathBuf};
use std::process::{Command, Stdio};

use common::{folder, ysh, STRATEGY};

const BARS: &str = "time,open,high,low,close,volume,fast,slow\n0,1,2,0.5,1.5,10,1,2\n60000,1.5,2,1,1.8,10,2,1\n";

/// A strategy and a file of bars in a folder.
fn put(folder: &Path) -> (String, String) {
    let (strategy, bars) = (folder.join("s.json"), folder.join("b.csv"));
    fs::write(&strategy, STRATEGY).unwrap();
    fs::write(&bars, BARS).unwrap();
    (strategy.to_str().unwrap().to_owned(), bars.to_str().unwrap().to_owned())
}

fn program() -> Command {
    Command::new(env!("CARGO_BIN_EXE_ysh"))
}

/// The files of a folder, each with its bytes.
fn files(folder: &Path) -> Vec<(PathBuf, Vec<u8>)> {
    let mut all: Vec<_> =
        fs::read_dir(folder).unwrap().map(|entry| entry.unwrap().path()).filter(|path| path.is_file()).collect();
    all.sort();
    all.into_iter().map(|path| (path.clone(), fs::read(path).unwrap())).collect()
}

#[test]
fn a_full_device_is_noticed_and_a_reader_that_has_gone_is_not() {
    let folder = folder("luck-full");
    let (strategy, bars) = put(&folder);
    for arguments in [vec!["run", &strategy, &bars, "--json"], vec!["show", &strategy], vec!["--help"], vec!["manual"]]
    {
        let full = File::options().write(true).open("/dev/full").unwrap();
        let ran = program().args(&arguments).stdout(full).output().unwrap();
        assert_eq!(ran.status.code(), Some(2), "{arguments:?}");
    }
    let full = File::options().write(true).open("/dev/full").unwrap();
    let ran = program().args(["show", &strategy]).stdout(full).output().unwrap();
    assert!(String::from_utf8_lossy(&ran.stderr).contains("standard output: cannot be written: No space left"));
    let mut ran = program().args(["manual"]).stdout(Stdio::piped()).spawn().unwrap();
    drop(ran.stdout.take());
    assert_eq!(ran.wait().unwrap().code(), Some(0));
    let (status, _, err) = ysh(&["run", &strategy, &bars, "--html", "/dev/full"]);
    assert!(status == 2 && err.contains("/dev/full: cannot be written"), "{err}");
    assert_eq!(ysh(&["run", &strategy, &bars, "--html", "/dev/null"]).0, 0);
}

#[test]
fn an_output_is_no_input_and_no_other_output() {
    let folder = folder("luck-same");
    let (strategy, bars) = put(&folder);
    let at = |name: &str| folder.join(name).to_str().unwrap().to_owned();
    assert_eq!(ysh(&["compile", &strategy, "-o", &at("t.rtb")]).0, 0);
    assert_eq!(ysh(&["dump", "take", &strategy, &bars, "--at", "1", "-o", &at("image")]).0, 0);
    fs::hard_link(&bars, at("hard")).unwrap();
    std::os::unix::fs::symlink("b.csv", at("soft")).unwrap();
    std::os::unix::fs::symlink("o", at("to-o")).unwrap();
    fs::write(at("o"), "kept").unwrap();
    let before = files(&folder);
    let read = "it is read by this command";
    let twice = "it is written twice by this command";
    let (table, settings, image) = (at("t.rtb"), at("t.rtb.settings.json"), at("image"));
    for (arguments, why) in [
        (vec!["run", &strategy, &bars, "--html", &bars], read),
        (vec!["run", &strategy, &bars, "--trades", &strategy], read),
        (vec!["run", &strategy, &bars, "--html", &at("hard")], read),
        (vec!["run", &strategy, &bars, "--equity", &at("soft")], read),
        (vec!["run", &table, &bars, "--equity", &settings], read),
        (vec!["run", &strategy, &bars, "--trades", &at("o"), "--equity", &at("o")], twice),
        (vec!["run", &strategy, &bars, "--trades", &at("o"), "--html", &at("to-o")], twice),
        (vec!["run", &strategy, &bars, "--trades", &at("new"), "--html", &at("./new")], twice),
        (vec!["why", &strategy, &bars, "--at", "1", "--html", &bars], read),
        (vec!["dump", "take", &strategy, &bars, "--at", "1", "-o", &bars], read),
        (vec!["dump", "cut", &image, "--bytes", "9", "-o", &image], read),
        (vec!["dump", "resume", &image, &strategy, &bars, "--trades", &image], read),
        (vec!["compile", &strategy, "-o", &at("n"), "--words", &strategy], read),
        (vec!["compile", &strategy, "-o", &at("n"), "--words", &at("n")], twice),
        (vec!["compile", &strategy, "-o", &at("n"), "--words", &at("n.settings.json")], twice),
        (vec!["holdup", &table, "--rate", "1MB/s", "--html", &settings], read),
    ] {
        let (status, out, err) = ysh(&arguments.iter().map(|word| &word[..]).collect::<Vec<_>>());
        assert!(status == 2 && out.is_empty() && err.contains(why), "{arguments:?}: {err}");
        assert_eq!(files(&folder), before, "{arguments:?}");
    }
}

/// Where the settings cannot be written, no table is left either, and the old ones stay.
#[test]
fn a_table_and_its_settings_are_both_written_or_neither() {
    let folder = folder("luck-both");
    let (strategy, _) = put(&folder);
    let table = folder.join("t.rtb").to_str().unwrap().to_owned();
    fs::write(&table, "old").unwrap();
    fs::create_dir(format!("{table}.settings.json")).unwrap();
    let before = files(&folder);
    let (status, _, err) = ysh(&["compile", &strategy, "-o", &table]);
    assert!(status == 2 && err.contains("cannot be written: Is a directory"), "{err}");
    assert_eq!(files(&folder), before);
    fs::remove_dir(format!("{table}.settings.json")).unwrap();
    assert_eq!(ysh(&["compile", &strategy, "-o", &table]).0, 0);
    assert_eq!(files(&folder).len(), 4, "nothing is left beside them");
}

/// Settings that were made with another table are refused, and those of before, which do not say which, are told.
#[test]
fn a_table_has_its_own_settings() {
    let folder = folder("luck-settings");
    let (strategy, bars) = put(&folder);
    let other = folder.join("o.json").to_str().unwrap().to_owned();
    fs::write(&other, STRATEGY.replace("14]", "13]")).unwrap();
    let (a, b) = (folder.join("a.rtb").to_str().unwrap().to_owned(), folder.join("b.rtb").to_str().unwrap().to_owned());
    assert_eq!((ysh(&["compile", &strategy, "-o", &a]).0, ysh(&["compile", &other, "-o", &b]).0), (0, 0));
    assert_eq!(ysh(&["run", &a, &bars]).0, 0);
    let settings = format!("{b}.settings.json");
    fs::copy(format!("{a}.settings.json"), &settings).unwrap();
    for command in [vec!["run", &b, &bars], vec!["depth", &b], vec!["show", &b]] {
        let (status, _, err) = ysh(&command);
        assert!(status == 2 && err.contains("table_sha256: it is that of another table"), "{err}");
    }
    let text = fs::read_to_string(&settings).unwrap();
    let hash = text.lines().find(|line| line.contains("table_sha256")).unwrap();
    fs::write(&settings, text.replace(&format!(",\n{hash}"), "")).unwrap();
    let (status, _, err) = ysh(&["depth", &b]);
    assert!(status == 0 && err.contains("it does not say which table it belongs to"), "{err}");
}

/// A strategy that no table can hold is not read into a tree.
#[test]
fn a_file_that_is_far_too_long_is_not_read() {
    let folder = folder("luck-long");
    let many = vec!["{\"in_position\": true}"; 300_000].join(",");
    let long = STRATEGY.replace("\"all\": [", &format!("\"all\": [{many},"));
    let path = folder.join("s.json").to_str().unwrap().to_owned();
    fs::write(&path, &long).unwrap();
    for command in [vec!["depth", &path], vec!["show", &path], vec!["compile", &path, "-o", "/nowhere/t"]] {
        let (status, out, err) = ysh(&command);
        assert!(status == 2 && out.is_empty() && err.contains("it has more than 1,048,576 bytes"), "{err}");
    }
}

/// On a file system that is full the older report stays, whole. Only where a small one may be mounted.
#[test]
fn a_full_disk_leaves_what_was_there() {
    let folder = folder("luck-disk");
    let (strategy, bars) = put(&folder);
    let disk = folder.join("disk");
    fs::create_dir(&disk).unwrap();
    let mounted =
        Command::new("mount").args(["-t", "tmpfs", "-o", "size=8k", "tmpfs", disk.to_str().unwrap()]).output();
    if !mounted.is_ok_and(|mounted| mounted.status.success()) {
        eprintln!("no file system may be mounted here: a full disk was not tried");
        return;
    }
    let (html, table) = (disk.join("report.html"), disk.join("t.rtb"));
    fs::write(&html, "the older report").unwrap();
    let (status, _, err) = ysh(&["run", &strategy, &bars, "--html", html.to_str().unwrap()]);
    let kept = fs::read_to_string(&html).unwrap();
    // What is left of it is taken.
    let _ = fs::write(disk.join("filler"), vec![0; 1 << 20]);
    let (compiled, _, _) = ysh(&["compile", &strategy, "-o", table.to_str().unwrap()]);
    let left = files(&disk).len();
    Command::new("umount").arg(&disk).status().unwrap();
    assert!(status == 2 && err.contains("cannot be written: No space left"), "{err}");
    assert_eq!((kept.as_str(), compiled, left), ("the older report", 2, 2));
}

#[test]
fn two_runs_onto_one_file_leave_one_of_them_whole() {
    let folder = folder("luck-two");
    let (strategy, bars) = put(&folder);
    let html = folder.join("report.html");
    for _ in 0..10 {
        let run = |capital: &str| {
            let words = ["run", &strategy, &bars, "--capital", capital, "--html", html.to_str().unwrap()];
            program().args(words).stdout(Stdio::null()).spawn().unwrap()
        };
        for mut ran in [run("100"), run("123456789")] {
            assert_eq!(ran.wait().unwrap().code(), Some(0));
        }
        let page = fs::read_to_string(&html).unwrap();
        assert!(page.starts_with("<!doctype html>") && page.ends_with("</html>\n"));
        assert_eq!((page.matches("<h1>").count(), page.matches("</body>").count()), (1, 1));
    }
}

/// Every text that a client hands in, with what would forge a line, clear the screen, ring, or turn the reading round.
#[test]
fn no_text_from_outside_steers_a_terminal() {
    let folder = folder("luck-text");
    let evil = "X\\nequity   99,999.99 at the end\\u001b[2J\\u0007\\u009b\\u202e\\r";
    let raw = "X\nequity   99,999.99 at the end\u{1b}[2J\u{7}\u{202e}\r";
    let strategy = STRATEGY
        .replace("\"symbol\": \"x\"", &format!("\"symbol\": \"{evil}\", \"{evil}key\": 1"))
        .replace("\"timeframe\": \"1m\"", &format!("\"timeframe\": \"{evil}\""))
        .replace("\"slow\"", &format!("\"slow{evil}\""));
    let path = folder.join(format!("s{}.json", raw.replace('/', "")));
    fs::write(&path, &strategy).unwrap();
    let slot = format!("slow{}", raw.replace('\u{7}', "\u{7}\u{9b}"));
    let bars = folder.join(format!("b{raw}.csv"));
    let head = BARS.replace("fast,slow", &format!("fast,\"{slot}\",\"odd{raw}\""));
    fs::write(&bars, head.replace(",1,2\n", ",1,2,3\n").replace(",2,1\n", ",2,1,3\n")).unwrap();
    let (file, csv) = (path.to_str().unwrap(), bars.to_str().unwrap());
    let table = folder.join(format!("t{raw}.rtb"));
    let table = table.to_str().unwrap();
    for arguments in [
        vec!["show", file],
        vec!["depth", file],
        vec!["short", file, "--rows", "2"],
        vec!["holdup", file, "--rate", "1MB/s", "--have", "1us"],
        vec!["compile", file, "-o", table],
        vec!["depth", table],
        vec!["run", file, csv],
        vec!["why", file, csv, "--at", "1"],
        vec!["run", csv, file],
        vec!["depth", &format!("/nowhere/{raw}")],
        vec![raw],
        vec!["holdup", file, "--rate", raw],
    ] {
        let (_, out, err) = ysh(&arguments);
        for text in [&out, &err] {
            let bad = text.chars().find(|c| *c != '\n' && (c.is_control() || *c == '\u{202e}'));
            assert_eq!(bad, None, "{arguments:?}: {text}");
            assert!(!text.lines().any(|line| line.starts_with("equity   99")), "{arguments:?}: {text}");
        }
    }
}
