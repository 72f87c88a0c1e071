//! 100,000 damaged files of bars: an answer, or one line that names the file, the line and the column; never a panic, never another
//! status. Where it is known which cell was damaged, that is the one that is named.

mod common;

use std::fs;
use std::path::Path;

use common::{folder, ysh, Dice, STRATEGY};

const FILES: usize = 100_000;

/// A file's lines as cells, the first with the names.
type Cells = Vec<Vec<String>>;

fn whole(dice: &mut Dice) -> Cells {
    let funded = dice.percent(30);
    let mut names = vec!["time", "open", "high", "low", "close", "volume", "fast", "slow"];
    if funded {
        names.extend(["mark", "rate"]);
    }
    if dice.percent(20) {
        names.push("other");
    }
    let mut lines = vec![names.iter().map(|name| (*name).to_owned()).collect::<Vec<_>>()];
    for n in 0..dice.below(12) {
        let mut number = || format!("{}", (dice.below(4000) as f64) / 8.0);
        let mut cells = vec![(60 * n).to_string()];
        cells.extend((0..5).map(|_| number()));
        cells.extend([number(), number()].map(|x| if x.len() == 2 { String::new() } else { x }));
        if funded {
            cells.extend(if n % 2 == 0 { [number(), "0.01".to_owned()] } else { [String::new(), String::new()] });
        }
        cells.resize(names.len(), "x".to_owned());
        lines.push(cells);
    }
    lines
}

fn text(cells: &Cells, end: &str) -> Vec<u8> {
    cells.iter().map(|line| line.join(",") + end).collect::<String>().into_bytes()
}

/// Damages a cell or a line in a way that is always wrong; the line and the column, counted from 1, that have to be named.
fn known(cells: &mut Cells, dice: &mut Dice) -> (usize, Option<usize>) {
    let columns = cells[0].len();
    if cells.len() == 1 || dice.percent(15) {
        let column = dice.below(8);
        return match dice.below(3) {
            0 => {
                cells.iter_mut().for_each(|line| drop(line.remove(column)));
                (1, Some(columns))
            }
            1 => {
                cells[0][column].push('x');
                (1, Some(columns + 1))
            }
            _ => {
                let name = cells[0][column].clone();
                cells[0].push(name);
                (1, Some(columns + 1))
            }
        };
    }
    let line = 1 + dice.below(cells.len() - 1);
    let bad = ["abc", "1.2.3", "--5", "0x10", "1e", "é", "\u{1}", "1 2", "∞", "1_000", "12:30", "- 1"];
    match dice.below(4) {
        0 => {
            let column = dice.below(8);
            cells[line][column] = dice.pick(&bad).to_owned();
            (line + 1, Some(column + 1))
        }
        1 => {
            let column = dice.below(6);
            cells[line][column] = String::new();
            (line + 1, Some(column + 1))
        }
        2 => {
            cells[line].extend(vec!["7".to_owned(); 1 + dice.below(3)]);
            (line + 1, Some(columns + 1))
        }
        _ => {
            let left = 1 + dice.below(columns - 1);
            cells[line].truncate(left);
            // One empty cell alone is a blank line.
            if left == 1 && cells[line][0].is_empty() {
                cells[line][0] = "0".to_owned();
            }
            (line + 1, Some(left + 1))
        }
    }
}

/// A cell replaced by a number, one that is not finite among them: read, and perhaps refused.
fn replaced(cells: &mut Cells, dice: &mut Dice) {
    let numbers = ["nan", "inf", "-inf", "1e999", "-1e400", "0", "-0", "1e-400", "+5", ".5", "5.", " 7 ", "9e9"];
    if cells.len() > 1 {
        let line = 1 + dice.below(cells.len() - 1);
        let column = 1 + dice.below(7);
        cells[line][column] = dice.pick(&numbers).to_owned();
    }
}

/// Any bytes struck, put in, left out or repeated.
fn struck(mut bytes: Vec<u8>, dice: &mut Dice) -> Vec<u8> {
    for _ in 0..1 + dice.below(3) {
        if bytes.is_empty() {
            break;
        }
        let at = dice.below(bytes.len());
        match dice.below(7) {
            0 => bytes.truncate(at),
            1 => drop(bytes.remove(at)),
            2 => bytes[at] = dice.bits() as u8,
            3 => bytes.insert(at, dice.pick(b",,,\"\"\n\r\0 .-e9;\xef\xff")),
            4 => bytes[at] ^= 1 << dice.below(8),
            5 => drop(bytes.splice(
                at..at,
                dice.pick(&[&b"nan"[..], b"inf", b"-inf", b"1e999", b"\r\n\r\n", b"\xef\xbb\xbf"]).to_vec(),
            )),
            _ => {
                let end = (at + dice.below(60)).min(bytes.len());
                let again = bytes[at..end].to_vec();
                bytes.splice(at..at, again);
            }
        }
    }
    bytes
}

/// A file's answer: one line where it is refused, with its name, line and column.
fn told(strategy: &str, path: &Path, wanted: Option<(usize, Option<usize>)>, skip: bool) -> u8 {
    let file = path.to_str().unwrap();
    let more: &[&str] = if skip { &["--on-refusal", "skip"] } else { &[] };
    let (status, out, err) = ysh(&[&["run", strategy, file], more].concat());
    let damaged = || String::from_utf8_lossy(&fs::read(path).unwrap()).into_owned();
    let lines: Vec<&str> = err.lines().collect();
    match status {
        0 => assert!(lines.is_empty() && out.contains("profit factor"), "{err}\n{}", damaged()),
        1 | 2 => {
            assert!(skip && status == 1 || lines.len() == 1 && out.is_empty(), "{err}\n{}", damaged());
            for line in &lines {
                assert!(line.starts_with(&format!("ysh: {file}: line ")), "{err}\n{}", damaged());
                assert!(line.contains(", column "), "{err}\n{}", damaged());
                assert_eq!(line.contains(": refused 11 at "), status == 1, "{err}\n{}", damaged());
            }
        }
        other => panic!("status {other}: {err}\n{}", damaged()),
    }
    if let Some((line, column)) = wanted {
        let place = format!(": line {line}, column {}", column.map_or(String::new(), |column| column.to_string()));
        assert!(status == 2 && err.contains(&place), "{place:?} was expected: {err}\n{}", damaged());
    }
    status
}

fn some(folder: &Path, seed: u64, count: usize) -> [usize; 3] {
    let strategy = folder.join("s.json");
    let path = folder.join(format!("bars-{seed}.csv"));
    let mut dice = Dice(seed);
    let mut counts = [0; 3];
    for _ in 0..count {
        let mut cells = whole(&mut dice);
        let wanted = dice.percent(50).then(|| known(&mut cells, &mut dice));
        let gentle = wanted.is_none() && dice.percent(30);
        if gentle {
            replaced(&mut cells, &mut dice);
        }
        let bytes = text(&cells, dice.pick(&["\n", "\n", "\r\n"]));
        let bytes = if gentle || wanted.is_some() { bytes } else { struck(bytes, &mut dice) };
        fs::write(&path, bytes).unwrap();
        let skip = wanted.is_none() && dice.percent(20);
        counts[usize::from(told(strategy.to_str().unwrap(), &path, wanted, skip))] += 1;
    }
    counts
}

#[test]
fn damaged_bars() {
    let folder = folder("bars-damage");
    fs::write(folder.join("s.json"), STRATEGY).unwrap();
    let threads = std::thread::available_parallelism().map_or(1, usize::from);
    let counts = std::thread::scope(|scope| {
        let folder = &folder;
        let all: Vec<_> =
            (0..threads).map(|n| scope.spawn(move || some(folder, n as u64, FILES.div_ceil(threads)))).collect();
        all.into_iter().map(|one| one.join().unwrap()).fold([0; 3], |a, b| [a[0] + b[0], a[1] + b[1], a[2] + b[2]])
    });
    eprintln!(
        "of {} damaged files {} ran, {} had a refused bar, {} were no bars",
        FILES, counts[0], counts[1], counts[2]
    );
    assert!(counts.iter().all(|count| *count > FILES / 100), "{counts:?}");
}
