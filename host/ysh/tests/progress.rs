//! On a terminal, work of more than a second shows a bar, and ends. Where there is no `script` to make a terminal the test says so.

mod common;

use std::fs;
use std::process::Command;
use std::time::Instant;

use common::{folder, STRATEGY};

#[test]
fn a_bar_is_shown_and_the_work_ends() {
    let folder = folder("progress");
    for number in 0..500 {
        fs::write(folder.join(format!("client-{number:03}.json")), STRATEGY).unwrap();
    }
    let program = env!("CARGO_BIN_EXE_ysh");
    let files = vec![folder.to_str().unwrap(); 40].join(" ");
    let asked = format!("{program} depth {files} > /dev/null");
    let began = Instant::now();
    let Ok(ran) = Command::new("timeout").args(["300", "script", "-qec", &asked, "/dev/null"]).output() else {
        eprintln!("no timeout or script here: the bar was not looked at");
        return;
    };
    assert_ne!(ran.status.code(), Some(124), "it did not end");
    if ran.status.code() == Some(127) {
        eprintln!("no script here: the bar was not looked at");
        return;
    }
    let shown = String::from_utf8_lossy(&ran.stdout);
    assert!(ran.status.success(), "{shown}");
    assert!(began.elapsed().as_secs() < 2 || shown.contains("of 20000 files"), "{shown}");
}
