//! A name or a path that a paper puts in backquotes exists in the repository, and a theorem that docs/THEOREMS.md names stands in a file beside it.

use papers::{files, is_paper, names, paths, quoted, text};
use std::collections::BTreeSet;

/// What papers name that is not the repository's: tools, other programs' options, processors, the C library, the Rust original.
const OUTSIDE: [&str; 26] = [
    "malloc",
    "memcpy",
    "memset",
    "memmove",
    "apt-get",
    "chromium",
    "clang",
    "cargo",
    "rustc",
    "valgrind",
    "perf",
    "qemu",
    "-fprofile-use",
    "-fno-slp-vectorize",
    "--gc-sections",
    "--tool",
    "-DSEALED",
    "-march",
    "-mabi",
    "SCTLR_EL1.A",
    "x86_64-unknown-linux-gnu",
    "aarch64-unknown-linux-gnu",
    "riscv64-unknown-linux-gnu",
    "riscv64-unknown-elf",
    "--help",
    "require_feeds",
];

/// Words that stand for others in a path.
const PLACEHOLDERS: [&str; 5] = ["NAME", "TRIPLE", "CRATE", "N", "HERE"];

/// One name, path or option, and not a sentence, a formula or a line of code.
fn is_one_name(token: &str) -> bool {
    let letters = |c: char| c.is_alphanumeric() || "_-./:·′".contains(c);
    token.chars().all(letters) && token.chars().any(|c| c.is_alphabetic()) && !token.ends_with(':')
}

/// Whether it is a number, or bits: of those nothing is asked.
fn is_number(token: &str) -> bool {
    token.chars().all(|c| c.is_ascii_hexdigit() || "x_.-".contains(c))
        || token.starts_with(|c: char| c.is_ascii_digit())
}

fn stands(token: &str, words: &BTreeSet<String>, paths: &BTreeSet<String>) -> bool {
    let bare = token.trim_start_matches("./").trim_end_matches('/');
    if OUTSIDE.contains(&token)
        || paths.contains(bare)
        || paths.contains(bare.trim_start_matches('.'))
        || is_number(token)
    {
        return true;
    }
    if bare.starts_with("target/")
        || bare.starts_with("../")
        || bare.split(['/', ':']).any(|part| PLACEHOLDERS.contains(&part))
    {
        return true;
    }
    if bare.contains('/') {
        return false;
    }
    let known = |part: &str| words.contains(part) || words.contains(&part.replace('-', "_")) || paths.contains(part);
    bare.trim_start_matches('-').split("::").flat_map(|part| part.split('.')).filter(|part| !part.is_empty()).all(known)
}

fn report(what: &str, missing: &[String]) {
    assert!(missing.is_empty(), "{what}:\n  {}\n", missing.join("\n  "));
}

#[test]
fn what_papers_name_exists() {
    let files = files();
    let sources = files.iter().filter(|file| !is_paper(file) || file.ends_with(".h"));
    let words: BTreeSet<String> = sources.flat_map(|file| names(&text(file))).collect();
    let paths = paths(&files);
    let mut missing = Vec::new();
    for paper in files.iter().filter(|file| is_paper(file)) {
        for (line, token) in quoted(&text(paper)) {
            if is_one_name(&token) && !stands(&token, &words, &paths) {
                missing.push(format!("{paper}:{line}: `{token}`"));
            }
        }
    }
    report("in backquotes, and nowhere in the repository (a name that is not ours goes into OUTSIDE)", &missing);
}

/// What stands behind the arrow of each statement of docs/THEOREMS.md, its files and names, with the number of the arrow's line.
fn cited(paper: &str) -> Vec<(usize, String)> {
    let mut found: Vec<(usize, String)> = Vec::new();
    let mut open = false;
    for (i, line) in paper.lines().enumerate() {
        if let Some((_, cited)) = line.split_once('→') {
            found.push((i + 1, cited.to_string()));
            open = true;
        } else if !line.starts_with("  ") {
            open = false;
        } else if let (true, Some((_, cited))) = (open, found.last_mut()) {
            cited.push(' ');
            cited.push_str(line.trim());
        }
    }
    found
}

/// The files that a citation names, from `crates/` on: one that begins with no crate is of the crate before it.
fn files_in(cited: &str, files: &BTreeSet<String>) -> Vec<String> {
    let mut found = Vec::new();
    let mut specs = String::new();
    for word in
        cited.split(|c: char| c.is_whitespace() || "`,;()".contains(c)).map(|word| word.trim_end_matches([':', '.']))
    {
        for path in [format!("crates/{word}"), format!("{specs}/{word}")] {
            let inside = format!("{path}/");
            let there: Vec<&String> = files.iter().filter(|file| **file == path || file.starts_with(&inside)).collect();
            if word.contains('/') && !there.is_empty() {
                found.extend(there.into_iter().cloned());
                specs = path.split('/').take(3).collect::<Vec<_>>().join("/");
                break;
            }
        }
    }
    found
}

#[test]
fn theorems_stand_in_the_files_beside_them() {
    let files: BTreeSet<String> = files().into_iter().collect();
    let mut missing = Vec::new();
    for (line, cited) in cited(&text("docs/THEOREMS.md")) {
        let there: BTreeSet<String> = files_in(&cited, &files).iter().flat_map(|file| names(&text(file))).collect();
        for (_, name) in quoted(&cited) {
            let one = name.chars().all(|c| c.is_alphanumeric() || "_-′".contains(c));
            if one && !there.contains(&name) {
                missing.push(format!("docs/THEOREMS.md:{line}: `{name}`"));
            }
        }
    }
    report("named in docs/THEOREMS.md, and not in the file that stands beside it", &missing);
}
