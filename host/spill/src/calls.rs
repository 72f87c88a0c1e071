//! A file's bytes in memory: all that is unsafe here.
#![allow(unsafe_code)]

use std::fs::File;
use std::io;
use std::os::fd::AsRawFd;
use std::ptr::{self, NonNull};

/// The bytes of a word.
const WORD: usize = 8;

/// The first words of a file, mapped; shared with the file, so that the system can write them there and take their memory back.
#[derive(Debug)]
pub struct Map {
    at: NonNull<u64>,
    words: usize,
    /// Nobody else has it, and it never gets shorter.
    file: File,
}

// SAFETY: memory and an open file, neither bound to a thread; it is written to only by who has it alone.
unsafe impl Send for Map {}
unsafe impl Sync for Map {}

impl Map {
    /// So many words, at least one, of a file that is empty and nobody else's.
    pub fn of(file: File, words: usize) -> io::Result<Map> {
        Map::behind(file, 0, words)
    }

    /// The same file with more words mapped.
    pub fn longer(&self, words: usize) -> io::Result<Map> {
        Map::behind(self.file.try_clone()?, self.words, words)
    }

    /// The words of a file of which some are there. For the others places on the disk are taken first: where none is left that is an error
    /// here, and not a signal when they are written.
    fn behind(file: File, there: usize, words: usize) -> io::Result<Map> {
        let bytes = words.checked_mul(WORD).filter(|bytes| *bytes > there * WORD && *bytes <= isize::MAX as usize);
        let bytes = bytes.ok_or(io::ErrorKind::InvalidInput)?;
        allocate(&file, there * WORD, bytes)?;
        let (way, how) = (libc::PROT_READ | libc::PROT_WRITE, libc::MAP_SHARED);
        // SAFETY: a new mapping, where the system likes; the file has so many bytes.
        let at = unsafe { libc::mmap(ptr::null_mut(), bytes, way, how, file.as_raw_fd(), 0) };
        if at == libc::MAP_FAILED {
            return Err(io::Error::last_os_error());
        }
        let at = NonNull::new(at.cast()).ok_or(io::ErrorKind::OutOfMemory)?;
        Ok(Map { at, words, file })
    }

    pub fn words(&self) -> &[u64] {
        // SAFETY: so many words are mapped as long as this lives, any bits are a word, and a page is aligned for them.
        unsafe { std::slice::from_raw_parts(self.at.as_ptr(), self.words) }
    }

    pub fn words_mut(&mut self) -> &mut [u64] {
        // SAFETY: as above, and nobody else has them.
        unsafe { std::slice::from_raw_parts_mut(self.at.as_ptr(), self.words) }
    }

    /// Gives the memory of some words back, whole pages of it; what they hold is the file's, and is there when they are looked at again.
    pub fn release(&self, from: usize, upto: usize) {
        let page = page();
        let (from, upto) = ((from * WORD).div_ceil(page) * page, upto.min(self.words) * WORD / page * page);
        if from < upto {
            // SAFETY: pages within the mapping. It is shared with its file, so nothing that was written is lost, also while others read it.
            unsafe { libc::madvise(self.at.as_ptr().cast::<u8>().add(from).cast(), upto - from, libc::MADV_DONTNEED) };
        }
    }
}

impl Drop for Map {
    fn drop(&mut self) {
        // SAFETY: what was mapped, and nothing borrows it any more.
        unsafe { libc::munmap(self.at.as_ptr().cast(), self.words * WORD) };
    }
}

/// The bytes of a page.
fn page() -> usize {
    // SAFETY: asks the system, and changes nothing.
    let bytes = unsafe { libc::sysconf(libc::_SC_PAGESIZE) };
    usize::try_from(bytes).ok().filter(|bytes| bytes.is_power_of_two()).unwrap_or(1 << 16)
}

/// Takes places on the disk for the bytes of a file from some byte on, up to another; they read as zeros.
#[cfg(any(target_os = "linux", target_os = "android", target_os = "freebsd"))]
fn allocate(file: &File, from: usize, upto: usize) -> io::Result<()> {
    let number = |bytes: usize| libc::off_t::try_from(bytes).map_err(|_| io::ErrorKind::InvalidInput);
    let (at, bytes) = (number(from)?, number(upto - from)?);
    loop {
        // SAFETY: a number of an open file, and numbers.
        match unsafe { libc::posix_fallocate(file.as_raw_fd(), at, bytes) } {
            0 => return Ok(()),
            libc::EINTR => {}
            error => return Err(io::Error::from_raw_os_error(error)),
        }
    }
}

/// The same by writing zeros.
#[cfg(not(any(target_os = "linux", target_os = "android", target_os = "freebsd")))]
fn allocate(mut file: &File, from: usize, upto: usize) -> io::Result<()> {
    use std::io::{Read, Seek, SeekFrom};
    file.seek(SeekFrom::Start(from as u64))?;
    io::copy(&mut io::repeat(0).take((upto - from) as u64), &mut file).map(|_| ())
}
