//! `examples/cluster` for real: a Slurm of this machine alone, and GNU parallel, each against one process. What is not installed is said in
//! one line, and the test passes.

mod common;

use std::fs;
use std::path::{Path, PathBuf};
use std::process::Command;

use common::{folder, ysh};

const PROGRAM: &str = env!("CARGO_BIN_EXE_ysh");
const NOT_HERE: i32 = 77;

fn root() -> PathBuf {
    fs::canonicalize(Path::new(env!("CARGO_MANIFEST_DIR")).join("../..")).unwrap()
}

/// The runs: three strategies over a day and over half of it.
fn runs(folder: &Path) -> Vec<String> {
    let (strategies, day) = (root().join("examples/strategies"), root().join("examples/bars/day.csv"));
    let text = fs::read_to_string(&day).unwrap();
    let half = folder.join("half.csv");
    fs::write(&half, text.lines().take(720).map(|line| format!("{line}\n")).collect::<String>()).unwrap();
    let paths = [&strategies, Path::new("--bars"), &day, &half];
    paths.map(|path| path.to_str().unwrap().to_owned()).to_vec()
}

/// The parts that a folder holds, joined, and the runs in one process.
fn the_same(folder: &Path, parts: usize, runs: &[String]) {
    let files: Vec<String> = (1..=parts).map(|n| folder.join(format!("part-{n}.json")).display().to_string()).collect();
    let files: Vec<&str> = files.iter().map(String::as_str).collect();
    let joined = ysh(&[&["totals", "join", "--json"], &files[..]].concat());
    let runs: Vec<&str> = runs.iter().map(String::as_str).collect();
    let alone = ysh(&[&["trials", "--json"], &runs[..]].concat());
    assert_eq!((alone.0, alone.2.as_str()), (0, ""));
    assert!(alone.1.contains("\"runs\":6") && joined == alone, "{}", joined.2);
}

/// A job array of four parts, by daemons that the script starts and ends.
#[test]
fn a_job_array_comes_to_the_same() {
    let folder = folder("cluster-slurm");
    let runs = runs(&folder);
    let cluster = root().join("examples/cluster");
    let log = format!("--output={}/log-%a", folder.display());
    let ran = Command::new(cluster.join("slurm-here"))
        .args(["timeout", "300", "sbatch", "--wait", "--array=1-4", &log])
        .arg(cluster.join("array.sbatch"))
        .arg(&folder)
        .args(&runs)
        .env("YSH", PROGRAM)
        .output()
        .unwrap();
    let said = String::from_utf8_lossy(&ran.stderr);
    if ran.status.code() == Some(NOT_HERE) {
        eprint!("{said}");
        return;
    }
    assert!(ran.status.success(), "{said}");
    the_same(&folder, 4, &runs);
}

#[test]
fn gnu_parallel_comes_to_the_same() {
    let version = Command::new("parallel").arg("--version").output();
    if !version.is_ok_and(|ran| String::from_utf8_lossy(&ran.stdout).starts_with("GNU parallel")) {
        eprintln!("no GNU parallel here: it was not tried");
        return;
    }
    let folder = folder("cluster-parallel");
    let runs = runs(&folder);
    let script = root().join("examples/cluster/parallel.sh");
    let ran = Command::new(script).arg("4").arg(&folder).args(&runs).env("YSH", PROGRAM).output().unwrap();
    assert!(ran.status.success(), "{}", String::from_utf8_lossy(&ran.stderr));
    the_same(&folder, 4, &runs);
}
