//! What a run leaves behind for each bar or trade, one after another: more of it than memory may hold. The words are `spill`'s to keep.

use std::io;
use std::marker::PhantomData;

use spill::Words;
use yshturpa::layout::{POINT_WORDS, TRADE_WORDS};
use yshturpa::{Point, Room, Trade};

use crate::problem::Problem;

/// What a list is of.
pub trait Record {
    const WORDS: usize;
    fn of(words: &[u64]) -> Self;
}

impl Record for Point {
    const WORDS: usize = POINT_WORDS;
    fn of(words: &[u64]) -> Point {
        Point::of(words)
    }
}

impl Record for Trade {
    const WORDS: usize = TRADE_WORDS;
    fn of(words: &[u64]) -> Trade {
        Trade::of(words)
    }
}

impl Record for f64 {
    const WORDS: usize = 1;
    fn of(words: &[u64]) -> f64 {
        f64::from_bits(words[0])
    }
}

impl Record for i64 {
    const WORDS: usize = 1;
    fn of(words: &[u64]) -> i64 {
        words[0] as i64
    }
}

/// Points, trades, closes or times.
pub struct List<T> {
    pub words: Words,
    of: PhantomData<fn() -> T>,
}

impl<T> Default for List<T> {
    fn default() -> List<T> {
        List { words: Words::new(), of: PhantomData }
    }
}

impl<T: Record> List<T> {
    /// Records at the end, in their words.
    pub fn add(&mut self, words: &[u64]) -> Result<(), Problem> {
        self.words.extend(words).map_err(no_room)
    }

    pub fn len(&self) -> usize {
        self.words.len() / T::WORDS
    }

    pub fn is_empty(&self) -> bool {
        self.words.is_empty()
    }

    pub fn get(&self, place: usize) -> Option<T> {
        self.words.words().get(place * T::WORDS..(place + 1) * T::WORDS).map(T::of)
    }

    pub fn first(&self) -> Option<T> {
        self.get(0)
    }

    pub fn last(&self) -> Option<T> {
        self.get(self.len().checked_sub(1)?)
    }

    pub fn iter(&self) -> impl ExactSizeIterator<Item = T> + '_ {
        self.words.records(T::WORDS).map(T::of)
    }

    /// Those from a place on.
    pub fn iter_from(&self, place: usize) -> impl Iterator<Item = T> + '_ {
        self.words.records_from(T::WORDS, place * T::WORDS).map(T::of)
    }
}

/// A room that the library writes to.
#[derive(Default)]
pub struct Lent(pub Words);

impl Room for Lent {
    fn words(&self) -> &[u64] {
        self.0.words()
    }

    fn words_mut(&mut self) -> &mut [u64] {
        self.0.words_mut()
    }

    fn lengthen(&mut self, words: usize) -> io::Result<()> {
        self.0.lengthen(words)
    }
}

/// What is said where no more can be kept.
pub fn no_room(error: io::Error) -> Problem {
    let folder = std::env::temp_dir().display().to_string();
    let text = format!(
        "a temporary file for what the run leaves behind cannot be written: {error}; TMPDIR names another folder"
    );
    Problem::input(folder, "", text)
}
