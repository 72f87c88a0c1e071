//! Copies the Rust text of the strategy types and of the rules, byte for byte, into the build directory and declares it as modules.
//!
//! The directory is `WICKRA_SRC`, or `../shared/docs/src` beside the repository, as for `compare/oracle`.

use std::path::{Path, PathBuf};
use std::{env, fs};

const MODULES: [&str; 4] = ["data", "error", "rules", "spec"];

fn text_of(dir: &Path, module: &str) -> PathBuf {
    let names = [
        format!("src--crates--wickra-backtest-core--src--{module}.rs.txt"),
        format!("crates/wickra-backtest-core/src/{module}.rs"),
        format!("{module}.rs"),
    ];
    names
        .iter()
        .map(|name| dir.join(name))
        .find(|path| path.is_file())
        .unwrap_or_else(|| panic!("no text of {module} in {}: set WICKRA_SRC", dir.display()))
}

fn main() {
    let here = PathBuf::from(env::var("CARGO_MANIFEST_DIR").expect("set by cargo"));
    let out = PathBuf::from(env::var("OUT_DIR").expect("set by cargo"));
    let dir = env::var("WICKRA_SRC").map_or_else(|_| here.join("../../../shared/docs/src"), PathBuf::from);
    println!("cargo:rerun-if-env-changed=WICKRA_SRC");
    let mut modules = String::new();
    for name in MODULES {
        let from = text_of(&dir, name);
        println!("cargo:rerun-if-changed={}", from.display());
        let to = out.join(format!("{name}.rs"));
        fs::copy(&from, &to).expect("the build directory can be written");
        modules.push_str(&format!("#[allow(dead_code)]\n#[path = {to:?}]\nmod {name};\n"));
    }
    fs::write(out.join("modules.rs"), modules).expect("the build directory can be written");
}
