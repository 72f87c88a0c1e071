//! Damaged files of every sort: an answer, or one line that begins with the file's name; never a panic, never another status.

mod common;

use std::fs;

use common::{folder, table, ysh, Dice, STRATEGY};

/// Damaged in up to three places.
fn damaged(bytes: &[u8], dice: &mut Dice) -> Vec<u8> {
    let mut bytes = bytes.to_vec();
    for _ in 0..dice.below(4) {
        if bytes.is_empty() {
            break;
        }
        let at = dice.below(bytes.len());
        match dice.below(6) {
            0 => bytes.truncate(at),
            1 => drop(bytes.remove(at)),
            2 => bytes[at] = dice.bits() as u8,
            3 => bytes.insert(at, dice.pick(b"{}[],:\"019.-e \\")),
            4 => bytes[at] ^= 1 << dice.below(8),
            _ => {
                let end = (at + dice.below(40)).min(bytes.len());
                let again = bytes[at..end].to_vec();
                bytes.splice(at..at, again);
            }
        }
    }
    bytes
}

fn told(command: &[&str], file: &str) -> u8 {
    let (status, out, err) = ysh(command);
    let problems: Vec<&str> = err.lines().filter(|line| !line.contains(": note: ")).collect();
    match status {
        0 => assert!(problems.is_empty() && !out.is_empty(), "{err}"),
        1 | 2 => {
            assert_eq!(problems.len(), 1, "{err}");
            assert!(problems[0].starts_with(&format!("ysh: {file}: ")), "{err}");
            assert_eq!(status == 1, err.contains("refused "), "{err}");
        }
        other => panic!("status {other}: {err}"),
    }
    status
}

#[test]
fn damaged_strategies_and_tables() {
    let folder = folder("damage");
    let mut dice = Dice(5);
    let mut counts = [0; 3];
    for number in 0..2000 {
        let of_table = number % 2 == 0;
        let whole = if of_table { table(&mut dice) } else { STRATEGY.as_bytes().to_vec() };
        let path = folder.join(if of_table { "a.rtb" } else { "a.json" });
        let file = path.to_str().unwrap();
        fs::write(&path, damaged(&whole, &mut dice)).unwrap();
        let command = dice.pick(&["show", "depth", "short", "holdup"]);
        let more: &[&str] = match command {
            "short" => &["--rows", "3"],
            "holdup" => &["--rate", "1MB/s", "--have", "1ms", "--json"],
            _ => &[],
        };
        match command {
            // It writes a document in any case.
            "holdup" => {
                let (status, out, _) = ysh(&[&[command, file], more].concat());
                let json: serde_json::Value = serde_json::from_str(&out).unwrap();
                let answered = json["not_answered"].as_array().unwrap().is_empty();
                assert_eq!(answered, matches!(status, 0 | 3), "{status}");
                counts[if answered { 0 } else { usize::from(status) }] += 1;
            }
            _ => counts[usize::from(told(&[&[command, file], more].concat(), file))] += 1,
        }
    }
    assert!(counts.iter().all(|count| *count > 50), "{counts:?}");
}
