//! A driver as docs/FLASH.md tells one to write a dump, page by page into an erased area, its programs counted one by one: made without
//! the tool's own plan, and held against what `ysh holdup` says of count, time and how many rows would fit.

mod common;

use std::fs;
use std::path::{Path, PathBuf};

use common::{folder, ysh, Dice};
use serde_json::Value;
use ysh::table::{bytes_of, Node};
use yshturpa::layout::kind;

const ERASED: u8 = 0xff;
/// Mark, K, version and D.
const FIRST: usize = 8;
const MOST_ROWS: u64 = 4096;

/// A flash part that erases to ones; it counts programs and time, in picoseconds.
struct Part {
    bytes: Vec<u8>,
    page: usize,
    page_time: u128,
    short_time: u128,
    programs: u64,
    clock: u128,
}

impl Part {
    /// A program of a page's bytes, of which none was programmed before.
    fn page(&mut self, image: &[u8], from: usize, end: usize) {
        assert!(from < end && from / self.page == (end - 1) / self.page, "a program stays in its page");
        assert!(self.bytes[from..end].iter().all(|byte| *byte == ERASED), "programmed before");
        self.bytes[from..end].copy_from_slice(&image[from..end]);
        self.programs += 1;
        self.clock += self.page_time;
    }

    /// The commit's own program.
    fn short(&mut self, at: usize, bytes: &[u8]) {
        assert!(self.bytes[at..at + bytes.len()].iter().all(|byte| *byte == ERASED), "programmed before");
        self.bytes[at..at + bytes.len()].copy_from_slice(bytes);
        self.programs += 1;
        self.clock += self.short_time;
    }
}

#[derive(Clone, Debug)]
struct Case {
    slots: u64,
    page: usize,
    page_time: u128,
    commit: &'static str,
    commit_time: Option<u128>,
    repeats: u64,
    erase: u128,
    before: u128,
    call: u128,
    margin: u128,
}

impl Case {
    fn of(dice: &mut Dice) -> Case {
        let commit = dice.pick(&["mark", "mark", "page", "seal"]);
        let sometimes = |dice: &mut Dice, most: usize| if dice.percent(30) { dice.below(most) } else { 0 };
        let micros = |n: usize| n as u128 * 1_000_000;
        let commit_time = (commit != "page" && dice.percent(40)).then(|| micros(1 + dice.below(900)));
        Case {
            slots: dice.below(65) as u64,
            // A seal's unit of 16 bytes divides a page.
            page: if commit == "seal" { page_size(dice) / 16 * 16 } else { page_size(dice) },
            page_time: micros(1 + dice.below(5000)),
            commit,
            commit_time,
            repeats: sometimes(dice, 5) as u64,
            erase: micros(sometimes(dice, 300_000)),
            before: micros(sometimes(dice, 1000)),
            call: micros(dice.below(300)),
            margin: sometimes(dice, 50) as u128,
        }
    }

    /// The clock after a box has written one dump of so many rows, how many programs that took, and the pages that were programmed.
    fn written(&self, rows: u64) -> (u128, u64, u64) {
        let size = 256 + rows as usize * 8 * (7 + self.slots as usize);
        let image: Vec<u8> = (0..size).map(|at| (at % 251) as u8).collect();
        let room = size + 2 * self.page.max(16);
        let short_time = self.commit_time.unwrap_or(self.page_time);
        let (page, page_time) = (self.page, self.page_time);
        let mut part = Part { bytes: vec![ERASED; room], page, page_time, short_time, programs: 0, clock: 0 };
        part.clock += self.call + self.before + self.erase;
        match self.commit {
            "mark" => {
                for start in (0..size).step_by(page) {
                    part.page(&image, start.max(FIRST), (start + page).min(size));
                }
                part.short(0, &image[..FIRST]);
            }
            "page" => {
                for start in (0..size).step_by(page).skip(1) {
                    part.page(&image, start, (start + page).min(size));
                }
                part.page(&image, 0, page.min(size));
            }
            _ => {
                for start in (0..size).step_by(page) {
                    part.page(&image, start, (start + page).min(size));
                }
                part.short(size.next_multiple_of(16), &[0; 16]);
            }
        }
        assert_eq!(part.bytes[..size], image);
        let last = part.bytes.iter().rposition(|byte| *byte != ERASED).unwrap();
        // A program that has to be repeated takes its time again.
        for _ in 0..self.repeats {
            part.clock += part.page_time;
        }
        let pages = (last / page + 1) as u64;
        ((part.clock * (100 + self.margin)).div_ceil(100), part.programs, pages)
    }

    /// What the tool says of a table with so many rows, where so long a time is there.
    fn told(&self, file: &Path, have: u128) -> Value {
        let ps = |time: u128| format!("{}.{:03}us", time / 1_000_000, time / 1000 % 1000);
        let mut asked = vec!["holdup".to_owned(), file.display().to_string(), "--lookback=0".into(), "--json".into()];
        asked.push(format!("--page={}", self.page));
        asked.push(format!("--page-time={}", ps(self.page_time)));
        asked.push(format!("--commit={}", self.commit));
        asked.extend(self.commit_time.map(|time| format!("--commit-time={}", ps(time))));
        asked.push(format!("--retries={}", self.repeats));
        asked.push(format!("--erase-time={}", ps(self.erase)));
        asked.push(format!("--before={}", ps(self.before)));
        asked.push(format!("--call={}", ps(self.call)));
        asked.push(format!("--margin={}%", self.margin));
        asked.push(format!("--have={}", ps(have)));
        let (_, out, err) = ysh(&asked.iter().map(String::as_str).collect::<Vec<_>>());
        assert_eq!(err, "");
        serde_json::from_str(&out).unwrap()
    }
}

/// From 16 bytes to 64 KiB, as many small as large, and every second time a power of two.
fn page_size(dice: &mut Dice) -> usize {
    let power = 4 + dice.below(13);
    match dice.percent(50) || power == 16 {
        true => 1 << power,
        false => (1 << power) + dice.below(1 << power),
    }
}

fn rows(dice: &mut Dice) -> u64 {
    match dice.below(3) {
        0 => 1 + dice.below(20) as u64,
        1 => 1 + dice.below(300) as u64,
        _ => 1 + dice.below(MOST_ROWS as usize) as u64,
    }
}

/// A table whose rules need just so many rows: close above the close so many bars less one before.
fn table(folder: &Path, rows: u64, slots: u64) -> PathBuf {
    let price = Node { selector: 3, ..Node::plain(kind::PRICE) };
    let before = Node { n: rows as u32 - 1, ..Node::plain(kind::PREV) };
    let entry = [Node::plain(kind::GT), price, before, price];
    let exit = [Node::plain(kind::GT), price, price];
    let path = folder.join("t.rtb");
    fs::write(&path, bytes_of(slots as usize, [&entry, &exit, &[], &[]])).unwrap();
    path
}

#[test]
fn a_driver_takes_as_many_programs_and_as_long_as_was_said() {
    let folder = folder("driver");
    let mut dice = Dice(29);
    let mut fitting = 0;
    for _ in 0..1200 {
        let (case, rows) = (Case::of(&mut dice), rows(&mut dice));
        let (clock, programs, pages) = case.written(rows);
        // Whole nanoseconds about the time that it takes.
        let have = (clock * (50 + dice.below(100) as u128) / 100 / 1000 * 1000).max(1000);
        let have = if dice.percent(10) { clock.div_ceil(1000) * 1000 } else { have };
        let told = case.told(&table(&folder, rows, case.slots), have);
        let told = &told["files"][0];
        let context = format!("{case:?} {rows} rows, {have} ps: {told}");
        assert_eq!(told["rows"], rows, "{context}");
        assert_eq!(told["programs"], programs, "{context}");
        assert_eq!(told["area_pages"], pages, "{context}");
        assert_eq!(told["total_ms"], clock as f64 / 1e9, "{context}");
        assert_eq!(told["fits"], clock <= have, "{context}");
        let most = told["rows_that_fit"].as_u64().unwrap();
        assert!(most == 0 || case.written(most).0 <= have, "{context}");
        assert!(most == MOST_ROWS || case.written(most + 1).0 > have, "{context}");
        fitting += usize::from(clock <= have);
    }
    assert!((300..900).contains(&fitting), "{fitting}");
}
