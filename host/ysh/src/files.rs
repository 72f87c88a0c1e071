//! Files and folders, and what is said of one that cannot be read.

use std::fs;
use std::io::{self, Read};
use std::path::{Path, PathBuf};

use crate::columns::grouped;
use crate::problem::Problem;
use crate::show::shown;

/// A path as it is told: without the `./` of the folder at hand.
pub fn name_of(path: &Path) -> String {
    shown(&path.strip_prefix("./").unwrap_or(path).to_string_lossy())
}

/// The most bytes of a strategy, a table or settings: far above what any has that a table's 256 nodes can hold, and far below what
/// would take the machine's memory once it is a tree.
const MOST_BYTES: u64 = 1 << 20;

/// The bytes of a file that is not too long.
pub fn read_most(path: &Path) -> io::Result<Vec<u8>> {
    let mut bytes = Vec::new();
    fs::File::open(path)?.take(MOST_BYTES + 1).read_to_end(&mut bytes)?;
    match bytes.len() as u64 > MOST_BYTES {
        true => Err(io::Error::other(format!("it has more than {} bytes", grouped(MOST_BYTES)))),
        false => Ok(bytes),
    }
}

pub fn bytes_of(path: &Path) -> Result<Vec<u8>, Problem> {
    read_most(path).map_err(|error| {
        let problem = Problem::io(name_of(path), "read", &error);
        Problem { text: format!("{}; a strategy (JSON) or a rule table was expected", problem.text), ..problem }
    })
}

/// A strategy's text.
pub fn text_of(file: &str, bytes: Vec<u8>) -> Result<String, Problem> {
    if bytes.iter().all(u8::is_ascii_whitespace) {
        return Err(Problem::input(
            file,
            "line 1",
            "the file is empty; a strategy (JSON) or a rule table was expected",
        ));
    }
    String::from_utf8(bytes).map_err(|error| {
        let at = error.utf8_error().valid_up_to();
        let text =
            "no UTF-8 text and no rule table (its first bytes are not RTB); a strategy (JSON) or a table was expected";
        Problem::input(file, format!("byte {at}"), text)
    })
}

/// The files that arguments name, and what folders among them left out, each with the reason.
#[derive(Clone, Debug, Default)]
pub struct Found {
    pub files: Vec<PathBuf>,
    pub left_out: Vec<String>,
}

/// The files that arguments name: a folder stands for the strategies and tables in it, by name, and for those of the folders below it
/// where that is asked for.
pub fn files(arguments: &[PathBuf], recursive: bool) -> Result<Found, Problem> {
    let mut found = Found::default();
    for path in arguments {
        match path.is_dir() {
            true => in_folder(path, recursive, &mut found)?,
            false => found.files.push(path.clone()),
        }
    }
    Ok(found)
}

fn in_folder(folder: &Path, recursive: bool, found: &mut Found) -> Result<(), Problem> {
    let before = found.files.len();
    walk(folder, recursive, found)?;
    if found.files.len() == before {
        let text = "no file in it ends in .json or .rtb; strategies or tables were expected";
        return Err(Problem::input(name_of(folder), "", text));
    }
    Ok(())
}

fn walk(folder: &Path, recursive: bool, found: &mut Found) -> Result<(), Problem> {
    let read = |error: &std::io::Error| Problem::io(name_of(folder), "read", error);
    let mut paths = Vec::new();
    for entry in fs::read_dir(folder).map_err(|error| read(&error))? {
        paths.push(entry.map_err(|error| read(&error))?.path());
    }
    paths.sort();
    for path in &paths {
        match sort_of(path, &paths, recursive) {
            Sort::File => found.files.push(path.clone()),
            Sort::Below => walk(path, recursive, found)?,
            Sort::Beside => {}
            Sort::LeftOut(why) => found.left_out.push(format!("{}: left out: {why}", name_of(path))),
        }
    }
    Ok(())
}

/// What of a folder is.
enum Sort {
    /// A strategy or a table.
    File,
    /// A folder that is looked into.
    Below,
    /// The settings of a table of the same folder.
    Beside,
    LeftOut(&'static str),
}

fn sort_of(path: &Path, all: &[PathBuf], recursive: bool) -> Sort {
    let name = path.to_string_lossy();
    if path.is_dir() {
        return match (recursive, path.is_symlink()) {
            (true, false) => Sort::Below,
            (true, true) => Sort::LeftOut("a link to a folder"),
            (false, _) => Sort::LeftOut("a folder (--recursive reads it too)"),
        };
    }
    if !path.exists() {
        return Sort::LeftOut("a link to nothing");
    }
    match name.strip_suffix(".settings.json") {
        Some(table) if all.iter().any(|other| other.to_string_lossy() == table) => Sort::Beside,
        Some(_) => Sort::LeftOut("the settings of a table that is not there"),
        None if name.ends_with(".rtb") || name.ends_with(".json") => Sort::File,
        None => Sort::LeftOut("its ending is neither .json nor .rtb"),
    }
}
