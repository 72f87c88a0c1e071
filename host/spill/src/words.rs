//! A list of words that grows.

use std::fs::{self, File, OpenOptions};
use std::io;
use std::sync::mpsc::{channel, RecvTimeoutError};
use std::time::Duration;

use crate::calls::Map;

/// The words that are kept in memory; a list with more of them stands in a file.
const IN_MEMORY: usize = 1 << 19;

/// The words by which a file gets longer: as many as it has, but so many at the least and at the most.
const MORE: [usize; 2] = [1 << 16, 1 << 22];

/// The words after which the memory of those before is given back.
const PASSED: usize = 1 << 17;

/// How often the memory of a list is given back while it is read as a whole.
const EVERY: Duration = Duration::from_millis(2);

/// A list of words.
#[derive(Debug)]
pub struct Words {
    place: Place,
    len: usize,
    /// Those before were given back.
    released: usize,
    in_memory: usize,
}

#[derive(Debug)]
enum Place {
    Memory(Vec<u64>),
    File(Map),
}

impl Default for Words {
    fn default() -> Words {
        Words::new()
    }
}

impl Words {
    pub fn new() -> Words {
        Words::with(IN_MEMORY)
    }

    /// No words yet; of so many more are in a file.
    fn with(in_memory: usize) -> Words {
        Words { place: Place::Memory(Vec::new()), len: 0, released: 0, in_memory }
    }

    pub fn len(&self) -> usize {
        self.len
    }

    pub fn is_empty(&self) -> bool {
        self.len == 0
    }

    /// Words at the end. What goes wrong is of the file: there is no folder for it, or no room on its disk.
    pub fn extend(&mut self, words: &[u64]) -> io::Result<()> {
        let (from, upto) = (self.len, self.len + words.len());
        self.room_for(upto)?;
        self.room_mut()[from..upto].copy_from_slice(words);
        self.len = upto;
        // What was written is given back in pieces, not word by word.
        if self.len - self.released >= PASSED {
            self.release(self.released, self.len);
            self.released = self.len;
        }
        Ok(())
    }

    /// The same list with so many words at least, zeros behind those that were there.
    pub fn lengthen(&mut self, len: usize) -> io::Result<()> {
        self.room_for(len)?;
        self.len = self.len.max(len);
        Ok(())
    }

    pub fn words(&self) -> &[u64] {
        match &self.place {
            Place::Memory(words) => &words[..self.len],
            Place::File(map) => &map.words()[..self.len],
        }
    }

    pub fn words_mut(&mut self) -> &mut [u64] {
        let len = self.len;
        &mut self.room_mut()[..len]
    }

    /// All words, so many at a time, those at the end that are fewer left out; in passing their memory is given back.
    pub fn records(&self, width: usize) -> Records<'_> {
        self.records_from(width, 0)
    }

    /// The same from one of the words on.
    pub fn records_from(&self, width: usize, at: usize) -> Records<'_> {
        let at = at.min(self.len);
        Records { list: self, words: self.words(), width: width.max(1), at, released: at }
    }

    /// Gives the memory of some words back, where they are in a file.
    pub fn release(&self, from: usize, upto: usize) {
        if let Place::File(map) = &self.place {
            map.release(from, upto);
        }
    }

    fn room_mut(&mut self) -> &mut [u64] {
        match &mut self.place {
            Place::Memory(words) => words,
            Place::File(map) => map.words_mut(),
        }
    }

    /// Room for so many words, zeros where none was written.
    fn room_for(&mut self, len: usize) -> io::Result<()> {
        match &mut self.place {
            Place::Memory(words) if len <= self.in_memory => words.resize(words.len().max(len), 0),
            Place::Memory(words) => {
                let mut map = Map::of(unnamed()?, longer(len))?;
                map.words_mut()[..self.len].copy_from_slice(&words[..self.len]);
                self.place = Place::File(map);
            }
            Place::File(map) if len <= map.words().len() => {}
            Place::File(map) => *map = map.longer(longer(len))?,
        }
        Ok(())
    }
}

/// The words that a file gets for so many.
fn longer(len: usize) -> usize {
    len + len.clamp(MORE[0], MORE[1])
}

/// Words one record after another.
pub struct Records<'a> {
    list: &'a Words,
    words: &'a [u64],
    width: usize,
    at: usize,
    released: usize,
}

impl<'a> Iterator for Records<'a> {
    type Item = &'a [u64];

    fn next(&mut self) -> Option<&'a [u64]> {
        if self.at - self.released >= PASSED {
            self.list.release(self.released, self.at);
            self.released = self.at;
        }
        let record = self.words.get(self.at..self.at + self.width)?;
        self.at += self.width;
        Some(record)
    }

    fn size_hint(&self) -> (usize, Option<usize>) {
        let left = (self.words.len() - self.at) / self.width;
        (left, Some(left))
    }
}

impl ExactSizeIterator for Records<'_> {}

/// Does what reads whole lists, and gives their memory back meanwhile, again and again: no more of a list is in memory than was read since.
pub fn swept<T>(lists: &[&Words], work: impl FnOnce() -> T) -> T {
    if lists.iter().all(|list| matches!(list.place, Place::Memory(_))) {
        return work();
    }
    std::thread::scope(|scope| {
        let (done, over) = channel::<()>();
        scope.spawn(move || {
            while let Err(RecvTimeoutError::Timeout) = over.recv_timeout(EVERY) {
                lists.iter().for_each(|list| list.release(0, list.len));
            }
        });
        let came = work();
        drop(done);
        came
    })
}

/// A file that is gone once nothing holds it.
pub fn unnamed() -> io::Result<File> {
    let mut number = 0;
    loop {
        let path = std::env::temp_dir().join(format!(".ysh-{}-{number}", std::process::id()));
        match OpenOptions::new().read(true).write(true).create_new(true).open(&path) {
            Err(error) if error.kind() == io::ErrorKind::AlreadyExists && number < 1000 => number += 1,
            Err(error) => return Err(error),
            Ok(file) => {
                fs::remove_file(&path)?;
                return Ok(file);
            }
        }
    }
}

#[cfg(test)]
mod tests {
    use super::*;

    /// In memory, at the edge, in a file, and in one that got longer.
    #[test]
    fn a_list_is_what_was_put_in() {
        for (in_memory, count) in
            [(100, 0), (100, 99), (99, 99), (98, 99), (0, 1), (10, 300_000), (1000, 2 * MORE[1] + 300_000)]
        {
            let mut list = Words::with(in_memory);
            let mut next = 0..count as u64;
            for part in [1, 7, 4096, 100_000].into_iter().cycle() {
                let part: Vec<u64> = next.by_ref().take(part).collect();
                if part.is_empty() {
                    break;
                }
                list.extend(&part).unwrap();
            }
            assert_eq!((list.len(), list.is_empty()), (count, count == 0));
            assert_eq!(matches!(list.place, Place::File(_)), count > in_memory);
            assert!(list.words().iter().copied().eq(0..count as u64));
            assert!(list.records(3).map(|three| three[2]).eq((0..count as u64 / 3).map(|n| 3 * n + 2)));
            assert_eq!(list.records(3).len(), count / 3);
        }
    }

    #[test]
    fn a_longer_list_has_zeros_behind() {
        for in_memory in [0, 50, 500] {
            let mut list = Words::with(in_memory);
            list.extend(&[7; 20]).unwrap();
            list.lengthen(100).unwrap();
            list.lengthen(10).unwrap();
            list.words_mut()[99] = 5;
            list.release(0, 100);
            assert_eq!(list.len(), 100);
            assert!(
                list.words()[..20].iter().all(|word| *word == 7) && list.words()[20..99].iter().all(|word| *word == 0)
            );
            assert_eq!(list.words()[99], 5);
        }
    }

    #[test]
    fn what_reads_whole_lists_reads_them() {
        let mut list = Words::with(0);
        let numbers: Vec<u64> = (0..2_000_000).collect();
        list.extend(&numbers).unwrap();
        let sums =
            swept(&[&list, &Words::new()], || (0..20).map(|_| list.words().iter().sum::<u64>()).collect::<Vec<_>>());
        assert_eq!(sums, [numbers.iter().sum::<u64>(); 20]);
    }
}
