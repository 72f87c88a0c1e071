//! What is done with an input of each sort, and what must hold of the answers.

use std::fs;

use ysh::compile::{rules, Choices};
use ysh::table::Forest;
use yshturpa::{check, depth, silent, translate, Image, Tree};

use crate::told::{file, told, write};

const STRATEGY: &[u8] = include_bytes!("../../../examples/strategies/crossover.json");
const PAGES: [&str; 6] = ["--page", "256", "--page-time", "0.7ms", "--have", "11ms"];
const TREES: [Tree; 4] = [Tree::Entry, Tree::Exit, Tree::ShortEntry, Tree::ShortExit];

/// Nine bars with the slots of that strategy.
const BARS: &[u8] = b"time,open,high,low,close,volume,ema_fast,ema_slow,mark,rate\n\
    1,10,11,9,10,5,1,2,,\n2,10,11,9,10,5,2,1,10,0.001\n3,10,12,9,11,5,3,1,,\n4,11,12,9,9,5,2,2,,\n5,9,10,8,9,5,1,2,10,-0.001\n\
    6,9,10,8,9,5,1,2,,\n7,9,10,8,10,5,2,1,,\n8,10,11,9,10,5,,1,,\n9,10,11,9,10,5,1,2,,\n";

/// A strategy: whatever reads one answers; one that compiles gives a table that the library accepts.
pub fn strategy(bytes: &[u8]) {
    let path = write("a.json", bytes);
    let shown = told(&["show", &path]);
    let whole = told(&[&["holdup", &path][..], &PAGES].concat());
    assert_eq!(shown == 0, matches!(whole, 0 | 3), "one reads it and the other does not");
    told(&["run", &path, &write("bars.csv", BARS)]);
    let read = std::str::from_utf8(bytes).ok().and_then(|text| ysh::strategy::read(text).ok());
    if let Some(made) = read.and_then(|read| rules(&read.strategy, Choices::default()).ok()) {
        accepted(&made.table);
    }
}

/// A table: the library and the tool agree on whether it is one, and what is asked of an accepted one has an answer.
pub fn table(bytes: &[u8]) {
    let path = write("a.rtb", bytes);
    let _ = fs::remove_file(file("a.rtb.settings.json"));
    let shown = told(&["show", &path]);
    told(&["short", &path, "--rows", "3"]);
    told(&[&["holdup", &path][..], &PAGES].concat());
    match check(bytes) {
        Ok(_) => accepted(bytes),
        // What does not begin as a table is read as a strategy, and refused as one.
        Err(_) => assert_ne!(shown, 0),
    }
}

fn accepted(table: &[u8]) {
    let found = check(table).expect("accepted");
    let forest = Forest::of(table).expect("a forest");
    assert_eq!(forest.nodes.len() as u64, found.nodes);
    let needed = depth(table, 0).expect("a depth");
    assert_eq!(needed.rows, found.rows);
    assert!(
        silent(table, needed.rows).expect("an answer").is_empty(),
        "a test falls silent in a window that is deep enough"
    );
    for tree in TREES {
        let steps = translate(table, tree).expect("steps");
        assert!(steps.len() <= 64 * forest.tree_nodes(tree).len());
    }
}

/// The settings beside a table.
pub fn settings(bytes: &[u8]) {
    let (strategy, table) = (write("s.json", STRATEGY), file("s.rtb"));
    let table = table.to_str().expect("a plain path");
    if !file("s.rtb").exists() {
        assert_eq!(told(&["compile", &strategy, "-o", table]), 0);
    }
    write("s.rtb.settings.json", bytes);
    let bars = write("bars.csv", BARS);
    told(&[&["holdup", table][..], &PAGES].concat());
    told(&["run", table, &bars]);
    told(&["run", table, &bars, "--json", "--on-refusal", "skip"]);
}

/// A file of bars under a strategy: read and run, bar by bar refused or not.
pub fn bars(bytes: &[u8]) {
    let (strategy, bars) = (write("b.json", STRATEGY), write("b.csv", bytes));
    let stopped = told(&["run", &strategy, &bars]);
    let skipped = told(&["run", &strategy, &bars, "--json", "--on-refusal", "skip"]);
    assert!(stopped != 0 || skipped == 0, "what runs to its end does so however refusals are met");
    told(&["why", &strategy, &bars, "--at", "bar:3"]);
}

/// An image with one pattern for every NaN among the floats of its header, which a dump writes so.
fn plain(image: &[u8]) -> Vec<u8> {
    let mut image = image.to_vec();
    for word in image[32..136].chunks_exact_mut(8) {
        if f64::from_le_bytes((&*word).try_into().expect("eight bytes")).is_nan() {
            word.copy_from_slice(&f64::NAN.to_le_bytes());
        }
    }
    image
}

/// An image of a box: refused, or it holds a state that would be written just so.
pub fn image(bytes: &[u8]) {
    let path = write("a.img", bytes);
    let shown = told(&["dump", "show", &path]);
    told(&["dump", "cut", &path, "--bytes", "300"]);
    told(&["dump", "resume", &path, &write("i.json", STRATEGY), &write("bars.csv", BARS), "--rest"]);
    match Image::of(bytes) {
        Ok(image) => {
            assert_eq!(shown, 0);
            let again = image.cut(bytes.len() as u64).expect("a dump");
            assert_eq!(plain(&again), plain(bytes), "another image");
        }
        Err(_) => assert_ne!(shown, 0),
    }
}
