//! The papers of the repository, what they put in backquotes, and what there is: for the tests in `tests/`.

use std::collections::BTreeSet;
use std::fs;
use std::path::{Path, PathBuf};

/// The repository's root.
pub fn root() -> PathBuf {
    Path::new(env!("CARGO_MANIFEST_DIR")).join("../..")
}

/// Folders that hold what is made, not what is kept.
const MADE: [&str; 4] = ["target", "out", ".git", ".cargo"];

/// Every file of the repository, by its path from the root.
pub fn files() -> Vec<String> {
    let mut found = Vec::new();
    collect(&root(), "", &mut found);
    found.sort();
    found
}

fn collect(folder: &Path, before: &str, found: &mut Vec<String>) {
    for entry in fs::read_dir(folder).expect("a folder of the repository").flatten() {
        let name = entry.file_name().to_string_lossy().into_owned();
        let path = if before.is_empty() { name.clone() } else { format!("{before}/{name}") };
        let kind = entry.file_type().expect("a file's type");
        if kind.is_dir() && !MADE.contains(&name.as_str()) {
            collect(&entry.path(), &path, found);
        } else if kind.is_file() {
            found.push(path);
        }
    }
}

/// The text of a file; empty where it is none.
pub fn text(path: &str) -> String {
    fs::read(root().join(path)).map(|bytes| String::from_utf8_lossy(&bytes).into_owned()).unwrap_or_default()
}

/// A paper says how things are. Four in docs/ say how they were, too, so they may name what is gone.
pub fn is_paper(path: &str) -> bool {
    let of_before = ["docs/CHANGES.md", "docs/PORT.md", "docs/DESIGN-PASS.md", "docs/LOOK-BACK.md"].contains(&path);
    let in_docs = path.starts_with("docs/") && path.ends_with(".md") && !of_before;
    in_docs
        || path == "README.md"
        || path == "CONTRIBUTING.md"
        || path.ends_with("/README.md")
        || path == "include/yshturpa.h"
}

/// What stands between backquotes on a line, with the number of the line. Blocks of code are passed over.
pub fn quoted(text: &str) -> Vec<(usize, String)> {
    let mut found = Vec::new();
    let mut code = false;
    for (i, line) in text.lines().enumerate() {
        if line.trim_start().starts_with("```") {
            code = !code;
        } else if !code {
            let parts: Vec<&str> = line.split('`').collect();
            let whole = parts.len() - usize::from(parts.len() % 2 == 0);
            found.extend(parts[..whole].iter().skip(1).step_by(2).map(|part| (i + 1, part.trim().to_string())));
        }
    }
    found
}

/// A letter of a name: of Rust, of C and of antt, whose names may hold a hyphen.
fn in_name(c: char) -> bool {
    c.is_alphanumeric() || "_-·′".contains(c)
}

/// The names in a text, and for those with hyphens their parts too.
pub fn names(text: &str) -> BTreeSet<String> {
    let words = text.split(|c| !in_name(c)).map(|word| word.trim_matches('-'));
    words
        .flat_map(|word| std::iter::once(word).chain(word.split('-')))
        .filter(|word| !word.is_empty())
        .map(str::to_string)
        .collect()
}

/// Every path that leads to a file from anywhere in the repository, whole or in part, with and without its ending.
pub fn paths(files: &[String]) -> BTreeSet<String> {
    let mut found = BTreeSet::new();
    for file in files {
        let parts: Vec<&str> = file.split('/').collect();
        for from in 0..parts.len() {
            for to in from + 1..=parts.len() {
                let path = parts[from..to].join("/");
                if let Some((stem, _)) = path.rsplit_once('.') {
                    found.insert(stem.to_string());
                }
                found.insert(path);
            }
        }
        // a must-fail edit is named by its crate and itself
        if let ["crates", name, "must-fail", edit] = parts[..] {
            found.insert(format!("{name}/{}", edit.trim_end_matches(".edit")));
        }
    }
    found
}

/// The sentences of a paper's paragraphs and lists, a name in backquotes as one word. Code, tables and headings have none.
pub fn sentences(paper: &str) -> Vec<String> {
    let mut paragraphs = vec![String::new()];
    for line in paper.lines() {
        let prose = !line.is_empty() && !line.starts_with("    ") && !line.starts_with(['|', '#']);
        let item = line
            .trim_start()
            .split_once(' ')
            .filter(|(mark, _)| *mark == "-" || mark.trim_end_matches('.').parse::<u8>().is_ok());
        if !prose || item.is_some() {
            paragraphs.push(String::new());
        }
        if prose {
            let paragraph = paragraphs.last_mut().expect("there is one");
            paragraph.push_str(item.map_or(line, |(_, rest)| rest).trim());
            paragraph.push(' ');
        }
    }
    paragraphs.iter().flat_map(|paragraph| cut(&plain(paragraph))).collect()
}

/// A paragraph with one word for each name in backquotes.
fn plain(paragraph: &str) -> String {
    paragraph.split('`').enumerate().map(|(place, part)| if place % 2 == 0 { part } else { "Name" }).collect()
}

/// A sentence ends at a full stop, a question mark or an exclamation mark that a space and then a capital, a digit or a mark follows.
fn cut(paragraph: &str) -> Vec<String> {
    let mut sentences = vec![String::new()];
    let mut words = paragraph.split_whitespace().peekable();
    while let Some(word) = words.next() {
        let sentence = sentences.last_mut().expect("there is one");
        sentence.push_str(word);
        sentence.push(' ');
        let ends = word.trim_end_matches(['"', ')', '*', '_']).ends_with(['.', '?', '!']);
        let begins = words.peek().is_some_and(|next| !next.starts_with(|c: char| c.is_lowercase()));
        if ends && begins {
            sentences.push(String::new());
        }
    }
    sentences.retain(|sentence| sentence.chars().any(char::is_alphanumeric));
    sentences
}
