//! Files that a command writes: all of them whole or none, and none over a file that the command reads, or over another that it writes.

use std::ffi::OsString;
use std::fs::{self, File, OpenOptions};
use std::io::{self, Write};
use std::os::unix::fs::MetadataExt;
use std::path::{Path, PathBuf};

use crate::files::name_of;
use crate::problem::Problem;

/// What one command reads and writes.
#[derive(Default)]
pub struct Outputs<'a> {
    inputs: Vec<PathBuf>,
    files: Vec<(PathBuf, Writing<'a>)>,
}

/// What writes a file, piece by piece where it is long.
type Writing<'a> = Box<dyn Fn(&mut dyn Write) -> io::Result<()> + 'a>;

impl<'a> Outputs<'a> {
    /// For a command that reads these files.
    pub fn of<P: Into<PathBuf>>(inputs: impl IntoIterator<Item = P>) -> Outputs<'a> {
        Outputs { inputs: inputs.into_iter().map(Into::into).collect(), files: Vec::new() }
    }

    pub fn add(&mut self, path: &Path, bytes: impl Into<Vec<u8>>) {
        let bytes = bytes.into();
        self.add_written(path, move |out| out.write_all(&bytes));
    }

    /// A file by what writes it.
    pub fn add_written(&mut self, path: &Path, write: impl Fn(&mut dyn Write) -> io::Result<()> + 'a) {
        self.files.push((path.to_owned(), Box::new(write)));
    }

    /// Writes all files beside their places, then puts them there: where one cannot be written, none is.
    pub fn write(self) -> Result<(), Problem> {
        self.apart()?;
        let written = |path: &Path| {
            let name = name_of(path);
            move |error: io::Error| Problem::io(name, "written", &error)
        };
        let mut ready = Vec::new();
        for (path, write) in &self.files {
            ready.push(Ready::of(path, write).map_err(written(path))?);
        }
        for at in 0..ready.len() {
            if let Err(error) = ready[at].place() {
                ready[..at].iter_mut().for_each(Ready::undo);
                return Err(written(&self.files[at].0)(error));
            }
        }
        Ok(())
    }

    /// Whether each output is a file of its own.
    fn apart(&self) -> Result<(), Problem> {
        let inputs: Vec<Place> = self.inputs.iter().filter_map(|path| Place::of(path)).collect();
        let mut outputs: Vec<Place> = Vec::new();
        for (path, _) in &self.files {
            let Some(place) = Place::of(path) else { continue };
            let text = match (inputs.contains(&place), outputs.contains(&place)) {
                (true, _) => "it is read by this command; another file was expected",
                (_, true) => "it is written twice by this command; another file was expected",
                _ => "",
            };
            if !text.is_empty() {
                return Err(Problem::input(name_of(path), "", text));
            }
            outputs.push(place);
        }
        Ok(())
    }
}

/// Where bytes go, whatever it is called: a file by its device and number, or a name that is free in a folder.
#[derive(PartialEq, Eq)]
enum Place {
    There(u64, u64),
    Free(u64, u64, OsString),
}

impl Place {
    /// None for what cannot hold a file, and for devices, of which two may well be one.
    fn of(path: &Path) -> Option<Place> {
        if let Ok(found) = fs::metadata(path) {
            return found.is_file().then(|| Place::There(found.dev(), found.ino()));
        }
        let folder = fs::metadata(folder_of(path)).ok()?;
        Some(Place::Free(folder.dev(), folder.ino(), path.file_name()?.to_owned()))
    }
}

fn folder_of(path: &Path) -> &Path {
    path.parent().filter(|folder| !folder.as_os_str().is_empty()).unwrap_or(Path::new("."))
}

/// Bytes that stand beside their place, until they are put there.
struct Ready {
    target: PathBuf,
    /// Gone once it is in place; none for a device, which is written to as it is.
    beside: Option<PathBuf>,
    /// What was there before.
    before: Option<PathBuf>,
}

impl Ready {
    fn of(path: &Path, write: &Writing) -> io::Result<Ready> {
        let there = fs::metadata(path).ok();
        if there.as_ref().is_some_and(|there| !there.is_file() && !there.is_dir()) {
            buffered(&OpenOptions::new().write(true).open(path)?, write)?;
            return Ok(Ready { target: path.to_owned(), beside: None, before: None });
        }
        if there.as_ref().is_some_and(fs::Metadata::is_dir) {
            return Err(io::Error::from_raw_os_error(IS_A_DIRECTORY));
        }
        // A link stays one: what it leads to is replaced.
        let target = if there.is_some() { fs::canonicalize(path)? } else { path.to_owned() };
        let new = |path: &Path| OpenOptions::new().write(true).create_new(true).open(path);
        let (file, beside) = made_beside(&target, new)?;
        let ready = Ready { target, beside: Some(beside), before: None };
        buffered(&file, write)?;
        if let Some(there) = there {
            file.set_permissions(there.permissions())?;
        }
        file.sync_all()?;
        Ok(ready)
    }

    fn place(&mut self) -> io::Result<()> {
        let Some(beside) = &self.beside else { return Ok(()) };
        if self.target.exists() {
            // A file system without hard links keeps nothing of before; the file itself is whole all the same.
            let linked = made_beside(&self.target, |path| fs::hard_link(&self.target, path));
            self.before = linked.ok().map(|((), before)| before);
        }
        fs::rename(beside, &self.target)?;
        self.beside = None;
        // The name is the folder's: it is asked to keep it too, where it can be.
        let _ = File::open(folder_of(&self.target)).and_then(|folder| folder.sync_all());
        Ok(())
    }

    /// As it was before.
    fn undo(&mut self) {
        let _ = match self.before.take() {
            Some(before) => fs::rename(before, &self.target),
            None if self.beside.is_none() => fs::remove_file(&self.target),
            None => Ok(()),
        };
    }
}

impl Drop for Ready {
    fn drop(&mut self) {
        for path in [&self.beside, &self.before].into_iter().flatten() {
            let _ = fs::remove_file(path);
        }
    }
}

/// What is written in pieces goes to the file in larger ones.
fn buffered(file: &File, write: &Writing) -> io::Result<()> {
    let mut out = io::BufWriter::with_capacity(1 << 16, file);
    write(&mut out)?;
    out.flush()
}

const IS_A_DIRECTORY: i32 = 21;

/// What is made in the folder of another file, by a name that nothing has there.
fn made_beside<T>(target: &Path, make: impl Fn(&Path) -> io::Result<T>) -> io::Result<(T, PathBuf)> {
    let mut number = 0;
    loop {
        let path = folder_of(target).join(format!(".ysh-{}-{number}", std::process::id()));
        match make(&path) {
            Err(error) if error.kind() == io::ErrorKind::AlreadyExists && number < 1000 => number += 1,
            made => return made.map(|made| (made, path)),
        }
    }
}
