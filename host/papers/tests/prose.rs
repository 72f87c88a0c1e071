//! Papers can be read: lines of at most 160 characters, and in those that a stranger begins with sentences of at most 20 words, on average.

use papers::{files, is_paper, sentences, text};

const LONGEST_LINE: usize = 160;
const MOST_WORDS: f64 = 20.0;
const BEGIN_WITH: [&str; 5] = ["README.md", "docs/THEOREMS.md", "docs/INTERFACE.md", "docs/FLASH.md", "docs/HOLDUP.md"];

#[test]
fn no_line_is_too_long() {
    let mut long = Vec::new();
    let paper = |file: &&String| {
        (is_paper(file) || ["docs/CHANGES.md", "docs/PORT.md"].contains(&file.as_str())) && file.ends_with(".md")
    };
    for file in files().iter().filter(paper) {
        for (number, line) in text(file).lines().enumerate() {
            // A row of a table cannot be broken.
            if line.chars().count() > LONGEST_LINE && !line.trim_start().starts_with('|') {
                long.push(format!("{file}:{}", number + 1));
            }
        }
    }
    assert!(long.is_empty(), "longer than {LONGEST_LINE} characters:\n  {}", long.join("\n  "));
}

#[test]
fn sentences_are_short() {
    for paper in BEGIN_WITH {
        let lengths: Vec<usize> = sentences(&text(paper)).iter().map(|one| one.split_whitespace().count()).collect();
        let mean = lengths.iter().sum::<usize>() as f64 / lengths.len() as f64;
        assert!(lengths.len() > 30 && mean <= MOST_WORDS, "{paper}: {mean:.1} words a sentence, of {}", lengths.len());
    }
}
