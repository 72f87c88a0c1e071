//! Closes, and the high and the low of any stretch of them, quickly.

use std::io;

use crate::layout::{BLOCK_BARS, BLOCK_WORDS};
use crate::{calls, Error, Refusal};

/// Closes with the best of every 64 kept beside them, in rooms of a sort: vectors, where none is named.
#[derive(Clone, Debug, Default)]
pub struct Closes<R = Vec<u64>> {
    held: u64,
    closes: R,
    blocks: R,
}

/// Words that can be lent, and made more; what was there stays, and the others are any.
pub trait Room {
    fn words(&self) -> &[u64];
    fn words_mut(&mut self) -> &mut [u64];
    /// So many words at least.
    fn lengthen(&mut self, words: usize) -> io::Result<()>;
}

impl Room for Vec<u64> {
    fn words(&self) -> &[u64] {
        self
    }

    fn words_mut(&mut self) -> &mut [u64] {
        self
    }

    fn lengthen(&mut self, words: usize) -> io::Result<()> {
        self.resize(self.len().max(words), 0);
        Ok(())
    }
}

/// The highest and the lowest close of a stretch, each with the earliest bar that has it.
#[derive(Clone, Copy, Debug, PartialEq)]
pub struct Stretch {
    pub high: f64,
    pub high_bar: u64,
    pub low: f64,
    pub low_bar: u64,
}

impl Closes {
    /// No close yet.
    pub fn new() -> Closes {
        Closes::default()
    }
}

impl<R: Room> Closes<R> {
    /// No close yet, and these rooms.
    pub fn within(closes: R, blocks: R) -> Closes<R> {
        Closes { held: 0, closes, blocks }
    }

    /// How many closes there are.
    pub fn len(&self) -> u64 {
        self.held
    }

    pub fn is_empty(&self) -> bool {
        self.held == 0
    }

    /// The rooms: of the closes, and of the blocks.
    pub fn rooms(&self) -> [&R; 2] {
        [&self.closes, &self.blocks]
    }

    /// Room for so many closes more.
    pub fn make_room(&mut self, more: usize) -> io::Result<()> {
        let bars = self.held as usize + more;
        self.closes.lengthen(bars)?;
        self.blocks.lengthen(BLOCK_WORDS * bars.div_ceil(BLOCK_BARS))
    }

    /// One close more; refused with 11 where it is not finite, and with 10 where there is no room and none can be made.
    pub fn append(&mut self, close: f64) -> Result<(), Error> {
        if self.closes.words().len() <= self.held as usize {
            // Where this fails the call says that there is no room.
            let _ = self.make_room(self.held as usize + 2);
        }
        let (closes, blocks) = (self.closes.words_mut(), self.blocks.words_mut());
        Ok(Refusal::of(calls::append(&mut self.held, close.to_bits(), closes, blocks))?)
    }

    /// The high and the low of bars `first` to `last`, both included; refused with 18 where one of them is not there.
    pub fn stretch(&self, first: u64, last: u64) -> Result<Stretch, Error> {
        let [mut high, mut high_bar, mut low, mut low_bar] = [0; 4];
        let (closes, blocks) = (self.closes.words(), self.blocks.words());
        let answer =
            calls::stretch(self.held, first, last, closes, blocks, &mut high, &mut high_bar, &mut low, &mut low_bar);
        Refusal::of(answer)?;
        Ok(Stretch { high: f64::from_bits(high), high_bar, low: f64::from_bits(low), low_bar })
    }
}
