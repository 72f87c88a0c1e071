//! The same strategy over the same bars, by two libraries.

use std::fs;
use std::path::{Path, PathBuf};
use std::process::Command;

use loaded::{Library, Run};

use super::side::Side;
use crate::bars::{Keep, OnRefusal, Way};
use crate::files::name_of;
use crate::problem::Problem;
use crate::run::asked::Over;
use crate::run::outcome::Outcome;
use crate::run::results::Results;
use crate::run::Ready;

/// A run by the library of a file; by the one that the program was built with where none is named.
pub fn side(library: Option<&Path>, over: &Over) -> Result<Side, Problem> {
    match library {
        Some(path) => by_file(path, over),
        None => {
            let way = Way { on_refusal: over.on_refusal, after: None, until: None };
            let outcome = Outcome::of(Ready::of(over)?, way, false)?;
            Ok(Side {
                name: "this program's own library".to_owned(),
                of: format!("{} over {}", outcome.file, outcome.bars_file),
                equity: outcome.equity,
                trades: outcome.trades,
            })
        }
    }
}

fn by_file(path: &Path, over: &Over) -> Result<Side, Problem> {
    let name = name_of(path);
    let shared = Shared::of(path)?;
    let library = Library::open(&shared.path).map_err(|error| {
        Problem::input(&name, "", format!("cannot be loaded: {error}; a library of include/yshturpa.h was expected"))
    })?;
    let ready = Ready::of(over)?;
    let refused = |refusal| Problem::refused(&name, refusal);
    let mut run = Run::new(&library, &ready.source.table, &ready.settings).map_err(refused)?;
    let mut results = Results::default();
    ready.bars.each(|part| {
        let (mut at, end) = (0, part.bars.len());
        while at < end {
            let done = run.step_over(&part.bars, at..end);
            at += done.bars;
            match done.refused {
                Some(refusal) if over.on_refusal == OnRefusal::Stop || !of_a_bar(refusal.number) => {
                    return Err(refused(refusal));
                }
                // The refused bar is left out.
                Some(_) => at += 1,
                None => {}
            }
        }
        let (points, trades) = run.settled();
        results.results(points, trades)?;
        run.forget_settled();
        Ok(true)
    })?;
    run.finish().map_err(refused)?;
    let (points, trades) = run.results();
    results.results(points, trades)?;
    let of = format!("{} over {}", ready.source.file, ready.bars.name);
    Ok(Side { name, of, equity: results.points, trades: results.trades })
}

/// Whether a refusal is for the bar, which can be left out.
fn of_a_bar(number: u32) -> bool {
    matches!(number, 11 | 16)
}

/// A shared object: the file itself, or what an archive was linked into, which is gone afterwards.
struct Shared {
    path: PathBuf,
    made: Option<PathBuf>,
}

impl Shared {
    fn of(path: &Path) -> Result<Shared, Problem> {
        match path.extension().is_some_and(|end| end == "a") {
            true => linked(path),
            // Without a slash the system would look for it in its own folders.
            false => Ok(Shared { path: fs::canonicalize(path).unwrap_or_else(|_| path.to_owned()), made: None }),
        }
    }
}

impl Drop for Shared {
    fn drop(&mut self) {
        if let Some(folder) = &self.made {
            let _ = fs::remove_dir_all(folder);
        }
    }
}

/// An archive as a shared object: all of it, its calls bound to one another.
fn linked(archive: &Path) -> Result<Shared, Problem> {
    let name = name_of(archive);
    let wrong = |text: String| Problem::input(&name, "", text);
    let folder = made().map_err(|error| wrong(format!("a folder to link it in cannot be made: {error}")))?;
    let shared = Shared { path: folder.join("library.so"), made: Some(folder) };
    let compiler = std::env::var("CC").unwrap_or_else(|_| "cc".to_owned());
    let ran = Command::new(&compiler)
        .args(["-shared", "-Wl,-Bsymbolic", "-Wl,--whole-archive"])
        .arg(archive)
        .args(["-Wl,--no-whole-archive", "-o"])
        .arg(&shared.path)
        .output()
        .map_err(|error| wrong(format!("an archive is linked by {compiler}, which cannot be run: {error}")))?;
    if !ran.status.success() {
        let said = String::from_utf8_lossy(&ran.stderr);
        let line = said.lines().last().unwrap_or_default().to_owned();
        return Err(wrong(format!("{compiler} cannot link it into a shared object: {line}")));
    }
    Ok(shared)
}

/// A new folder that is this process's alone.
fn made() -> std::io::Result<PathBuf> {
    let mut number = 0;
    loop {
        let path = std::env::temp_dir().join(format!("ysh-{}-{number}", std::process::id()));
        match fs::create_dir(&path) {
            Err(error) if error.kind() == std::io::ErrorKind::AlreadyExists && number < 1000 => number += 1,
            made => return made.map(|()| path),
        }
    }
}
