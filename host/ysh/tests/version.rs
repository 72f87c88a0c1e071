//! One version: the header, the library, the wrapper, the program and the newest heading of docs/CHANGES.md say the same.

use std::process::Command;

fn repository(path: &str) -> String {
    std::fs::read_to_string(format!("{}/../../{path}", env!("CARGO_MANIFEST_DIR"))).expect(path)
}

/// 1000000 is 1.0.0.
fn dotted(number: u64) -> String {
    format!("{}.{}.{}", number / 1_000_000, number / 1_000 % 1_000, number % 1_000)
}

#[test]
fn all_say_one_version() {
    let header = repository("include/yshturpa.h");
    let line = header.lines().find_map(|line| line.strip_prefix("#define YSH_VERSION ")).expect("YSH_VERSION");
    let (number, comment) = line.split_once(' ').expect("a number and a comment");
    let version = dotted(number.parse().expect("YSH_VERSION is a number"));
    assert_eq!(comment, format!("/* {version} */"), "the header's comment");

    assert_eq!(dotted(yshturpa::library_version()), version, "the library's");
    assert_eq!(yshturpa::VERSION, version, "the wrapper's");

    let said = Command::new(env!("CARGO_BIN_EXE_ysh")).arg("--version").output().expect("ysh runs").stdout;
    assert_eq!(String::from_utf8(said).unwrap().trim(), format!("ysh {version}"), "the program's");

    let changes = repository("docs/CHANGES.md");
    let newest = changes.lines().find_map(|line| line.strip_prefix("## ")).expect("a heading");
    assert_eq!(newest.split_whitespace().next(), Some(version.as_str()), "the newest of docs/CHANGES.md");
}
