//! Copies the Rust text, byte for byte, into the build directory and declares it as modules.
//!
//! The directory is `WICKRA_SRC`, or `../shared/docs/src` beside the repository: either the folder of `src--*.rs.txt` files
//! or a checkout of the original. After the text of `engine` and of `portfolio` a child module is declared, which
//! may call what is private there. Nothing of the text is changed.

use std::path::{Path, PathBuf};
use std::{env, fs};

/// The modules taken from the text, and the child module added after it where there is one.
const MODULES: [(&str, Option<&str>); 8] = [
    ("data", None),
    ("engine", Some("src/reach/engine.rs")),
    ("error", None),
    ("metrics", None),
    ("portfolio", Some("src/reach/portfolio.rs")),
    ("report", None),
    ("rules", None),
    ("spec", None),
];

fn text_of(dir: &Path, module: &str) -> PathBuf {
    let names = [
        format!("src--crates--wickra-backtest-core--src--{module}.rs.txt"),
        format!("crates/wickra-backtest-core/src/{module}.rs"),
        format!("{module}.rs"),
    ];
    names
        .iter()
        .map(|name| dir.join(name))
        .find(|path| path.is_file())
        .unwrap_or_else(|| panic!("no text of {module} in {}: set WICKRA_SRC", dir.display()))
}

fn main() {
    let here = PathBuf::from(env::var("CARGO_MANIFEST_DIR").expect("set by cargo"));
    let out = PathBuf::from(env::var("OUT_DIR").expect("set by cargo"));
    let dir = env::var("WICKRA_SRC").map_or_else(|_| here.join("../../../shared/docs/src"), PathBuf::from);
    println!("cargo:rerun-if-env-changed=WICKRA_SRC");
    let mut modules = String::new();
    for (name, child) in MODULES {
        let from = text_of(&dir, name);
        println!("cargo:rerun-if-changed={}", from.display());
        let mut text = fs::read_to_string(&from).expect("the text can be read");
        if let Some(child) = child {
            let child = here.join(child);
            println!("cargo:rerun-if-changed={}", child.display());
            text.push_str(&format!("\n#[path = {child:?}]\npub mod reach;\n"));
        }
        let to = out.join(format!("{name}.rs"));
        fs::write(&to, text).expect("the build directory can be written");
        modules.push_str(&format!("#[allow(dead_code)]\n#[path = {to:?}]\npub mod {name};\n"));
    }
    fs::write(out.join("modules.rs"), modules).expect("the build directory can be written");
}
