//! `ysh` as a user meets it: in this process, over files of a folder that is this process's own.

use std::ffi::OsString;
use std::fs;
use std::path::PathBuf;
use std::sync::OnceLock;

/// A file of the folder, which FOLDER in the environment names.
pub fn file(name: &str) -> PathBuf {
    static FOLDER: OnceLock<PathBuf> = OnceLock::new();
    FOLDER.get_or_init(|| std::env::var_os("FOLDER").map_or_else(std::env::temp_dir, PathBuf::from)).join(name)
}

pub fn write(name: &str, bytes: &[u8]) -> String {
    let path = file(name);
    fs::write(&path, bytes).expect("an input is written");
    path.into_os_string().into_string().expect("a plain path")
}

/// Asks `ysh`. An answer has status 0, or 3 for a box that does not fit, and no problem; else there is one line for it, and status 1 says that the
/// library refused something. No character that could move a terminal's cursor is written.
pub fn told(arguments: &[&str]) -> u8 {
    let (mut out, mut err) = (Vec::new(), Vec::new());
    let all = std::iter::once("ysh").chain(arguments.iter().copied()).map(OsString::from);
    let status = ysh::run(all, &mut out, &mut err);
    let (out, err) = (String::from_utf8(out).expect("text"), String::from_utf8(err).expect("text"));
    assert!(!(out + &err).chars().any(|c| c.is_control() && c != '\n'), "{arguments:?}: a control character");
    let problems = err.lines().filter(|line| !line.contains(": note: ") && !line.contains("WARNING")).count();
    match status {
        0 | 3 => assert_eq!(problems, 0, "{arguments:?}: {err}"),
        1 | 2 => {
            assert_eq!(problems, 1, "{arguments:?}: {err}");
            assert_eq!(status == 1, err.contains("refused "), "{arguments:?}: {err}");
        }
        other => panic!("{arguments:?}: status {other}: {err}"),
    }
    status
}
