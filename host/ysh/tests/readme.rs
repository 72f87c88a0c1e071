//! The examples of README ("Does my box fit?") and of docs/TOUR.md ("How deep, how long, how large", "A strategy over bars"), as they stand: each
//! command is run and must write what is shown below it. README's picture is the one that its command draws.

mod common;

use std::path::Path;

use common::ysh;

/// The commands of a section of a paper, each with the lines shown below it.
fn examples(paper: &str, title: &str) -> Vec<(String, Vec<String>)> {
    let section = paper.split(&format!("## {title}\n")).nth(1).expect("the section is there");
    let section = section.split("\n## ").next().unwrap();
    let mut blocks: Vec<Vec<String>> = vec![Vec::new()];
    for line in section.lines() {
        match line.strip_prefix("    ") {
            Some(code) => blocks.last_mut().unwrap().push(code.to_owned()),
            // A blank line inside a block is kept; it ends one where no code follows.
            None if line.is_empty() && !blocks.last().unwrap().is_empty() => {
                blocks.last_mut().unwrap().push(String::new())
            }
            None => blocks.push(Vec::new()),
        }
    }
    let mut found = Vec::new();
    for mut block in blocks {
        while block.last().is_some_and(String::is_empty) {
            block.pop();
        }
        let Some(first) = block.iter().position(|line| line.starts_with("ysh ")) else { continue };
        let lines = 1 + block[first..].iter().take_while(|line| line.ends_with('\\')).count();
        let command: Vec<&str> =
            block[first..first + lines].iter().map(|line| line.trim_end_matches('\\').trim()).collect();
        found.push((command.join(" "), block[first + lines..].to_vec()));
    }
    found
}

#[test]
fn the_picture_is_of_the_example() {
    let root = Path::new(env!("CARGO_MANIFEST_DIR")).join("../..");
    let readme = std::fs::read_to_string(root.join("README.md")).unwrap();
    assert!(readme.contains("](docs/holdup.svg)"), "README shows it");
    let (command, _) = examples(&readme, "Does my box fit?").remove(0);
    let drawn = Path::new(env!("CARGO_TARGET_TMPDIR")).join("holdup.svg");
    let mut ysh = std::process::Command::new(env!("CARGO_BIN_EXE_ysh"));
    ysh.args(command.split_whitespace().skip(1)).arg("--svg").arg(&drawn).current_dir(&root);
    assert_eq!(ysh.output().unwrap().status.code(), Some(3), "{command}");
    let read = |path: &Path| std::fs::read_to_string(path).unwrap();
    assert_eq!(read(&drawn), read(&root.join("docs/holdup.svg")), "draw it anew: {command} --svg docs/holdup.svg");
}

#[test]
fn the_examples_run_as_they_stand() {
    let root = Path::new(env!("CARGO_MANIFEST_DIR")).join("../..");
    let read = |paper: &str| std::fs::read_to_string(root.join(paper)).unwrap();
    let (readme, tour) = (read("README.md"), read("docs/TOUR.md"));
    std::env::set_current_dir(&root).unwrap();
    let box_fits = examples(&readme, "Does my box fit?");
    let holdup = examples(&tour, "How deep, how long, how large");
    let bars = examples(&tour, "A strategy over bars");
    assert_eq!((box_fits.len(), holdup.len(), bars.len()), (1, 2, 7));
    for (command, shown) in box_fits.into_iter().chain(holdup).chain(bars) {
        let arguments: Vec<&str> = command.split_whitespace().skip(1).collect();
        let (status, out, err) = ysh(&arguments);
        let fits = !shown.iter().any(|line| line.contains("does not fit"));
        assert_eq!((status, err.as_str()), (if fits { 0 } else { 3 }, ""), "{command}");
        let shown: Vec<&str> = shown.iter().map(String::as_str).skip_while(|line| line.is_empty()).collect();
        let written: Vec<&str> = out.lines().take(shown.len()).collect();
        assert!(!shown.is_empty());
        assert_eq!(written, shown, "{command}");
    }
}
