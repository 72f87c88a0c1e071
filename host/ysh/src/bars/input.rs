//! Where a file's bytes come from: a file or standard input, unpacked by its ending. It is read as it is needed, and never held whole.

use std::fs::{self, File};
use std::io::{self, Read, Seek};
use std::path::{Path, PathBuf};
use std::sync::atomic::{AtomicU64, Ordering};
use std::sync::Arc;

use crate::files::name_of;

pub struct Input {
    pub name: String,
    from: From,
    packing: Packing,
}

enum From {
    Path(PathBuf),
    /// Once, from where it stands.
    Standard,
    /// What standard input had, in a file without a name.
    Copy(File),
}

#[derive(Clone, Copy)]
enum Packing {
    Plain,
    Gzip,
    Zstd,
}

/// How many bytes of a file, as it is stored, were read so far.
pub type Reached = Arc<AtomicU64>;

pub type Bytes = Box<dyn Read + Send>;

impl Input {
    pub fn of(path: &Path) -> Input {
        if path == Path::new("-") {
            return Input { name: "standard input".to_owned(), from: From::Standard, packing: Packing::Plain };
        }
        let ending = path.extension().map(|ending| ending.to_string_lossy().to_ascii_lowercase());
        let packing = match ending.as_deref() {
            Some("gz") => Packing::Gzip,
            Some("zst") => Packing::Zstd,
            _ => Packing::Plain,
        };
        Input { name: name_of(path), from: From::Path(path.to_owned()), packing }
    }

    /// What can be read a second time: standard input is copied to a file of the system's folder for such files.
    pub fn kept(self) -> io::Result<Input> {
        let From::Standard = self.from else { return Ok(self) };
        let mut copy = spill::unnamed()?;
        io::copy(&mut io::stdin().lock(), &mut copy)?;
        Ok(Input { from: From::Copy(copy), ..self })
    }

    /// The bytes of the file as it is stored, where that is known.
    pub fn length(&self) -> Option<u64> {
        match &self.from {
            From::Path(path) => fs::metadata(path).ok().filter(|found| found.is_file()).map(|found| found.len()),
            From::Copy(file) => file.metadata().ok().map(|found| found.len()),
            From::Standard => None,
        }
    }

    /// The bytes from the first on; standard input from where it stands.
    pub fn open(&self, reached: &Reached) -> io::Result<Bytes> {
        reached.store(0, Ordering::Relaxed);
        let stored: Bytes = match &self.from {
            From::Path(path) => Box::new(File::open(path)?),
            From::Standard => Box::new(io::stdin()),
            From::Copy(file) => {
                let mut file = file.try_clone()?;
                file.rewind()?;
                Box::new(file)
            }
        };
        let counted = Counted { inner: stored, reached: reached.clone() };
        Ok(match self.packing {
            Packing::Plain => Box::new(counted),
            Packing::Gzip => Box::new(flate2::read::MultiGzDecoder::new(io::BufReader::with_capacity(ROOM, counted))),
            Packing::Zstd => Box::new(zstd::stream::read::Decoder::new(counted)?),
        })
    }
}

/// Bytes that are read at once.
const ROOM: usize = 1 << 16;

struct Counted {
    inner: Bytes,
    reached: Reached,
}

impl Read for Counted {
    fn read(&mut self, room: &mut [u8]) -> io::Result<usize> {
        let read = self.inner.read(room)?;
        self.reached.fetch_add(read as u64, Ordering::Relaxed);
        Ok(read)
    }
}
