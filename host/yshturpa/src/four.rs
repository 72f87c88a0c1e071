//! Four accounts on one stream of bars.

use std::ops::Range;

use crate::layout::{status, stream, STATUS_WORDS, STREAM_WORDS};
use crate::{calls, Bar, Bars, Done, Engine, Refusal};

/// A stream of bars: how many slots each has, and how many were taken so far.
#[derive(Clone, Debug, PartialEq, Eq)]
pub struct Stream {
    words: [u64; STREAM_WORDS],
}

/// Whether an account runs, or what stopped it.
#[derive(Clone, Copy, Debug, PartialEq, Eq)]
pub enum Status {
    Runs,
    /// The refusal, and the bar of the stream at which it was given, numbered from 0.
    Stopped {
        refusal: Refusal,
        bar: u64,
    },
}

/// An account on a stream: a run of one table's rules, of which only the two long ones are used, and what stopped it.
#[derive(Clone, Debug)]
pub struct Account {
    table: Vec<u8>,
    /// The run: its state, rows, equity and trades are read there, and `finish` ends it.
    pub engine: Engine,
    status: [u64; STATUS_WORDS],
}

impl Account {
    /// An account that runs from the state that the engine has, with the table that the engine was made of.
    pub fn new(table: &[u8], engine: Engine) -> Account {
        Account { table: table.to_vec(), engine, status: [0; STATUS_WORDS] }
    }

    pub fn status(&self) -> Status {
        match self.status[status::NUMBER] {
            0 => Status::Runs,
            number => Status::Stopped {
                refusal: Refusal { number: number as u32, place: self.status[status::PLACE] as u32 },
                bar: self.status[status::BAR],
            },
        }
    }

    /// Lets a stopped account go on, from its own state and with the stream's next bar.
    pub fn resume(&mut self) {
        self.status[status::NUMBER] = 0;
    }

    fn lent(&mut self) -> calls::Account<'_> {
        let Engine { settings, state, rows, equity, trades, steps, .. } = &mut self.engine;
        let [entry, exit, ..] = steps;
        calls::Account {
            table: &self.table,
            settings,
            entry,
            exit,
            state,
            rows,
            equity,
            trades,
            status: &mut self.status,
        }
    }
}

impl Stream {
    /// A stream of bars with so many slots, before its first bar.
    pub fn new(slots: usize) -> Stream {
        let mut words = [0; STREAM_WORDS];
        words[stream::SLOTS] = slots as u64;
        Stream { words }
    }

    /// How many bars were taken.
    pub fn bars(&self) -> u64 {
        self.words[stream::BARS]
    }

    /// Bars for four accounts: how many the stream took, and what it refused. What an account refuses stands in its [`Account::status`].
    pub fn step(&mut self, bars: &[Bar], accounts: &mut [Account; 4]) -> (u64, Result<(), Refusal>) {
        let slots = self.words[stream::SLOTS] as usize;
        let (mut list, mut words) = (Vec::new(), Vec::new());
        for bar in bars {
            bar.words(slots, &mut words);
            list.extend_from_slice(&words);
        }
        self.step_words(&list, accounts)
    }

    /// The bars at some places of a list, up to the first that the stream refuses. Bars of another number of slots are none of its.
    pub fn step_over(&mut self, bars: &Bars, places: Range<usize>, accounts: &mut [Account; 4]) -> Done {
        let (done, answer) = self.step_words(bars.words(places), accounts);
        Done { bars: done as usize, refused: answer.err() }
    }

    fn step_words(&mut self, list: &[u64], accounts: &mut [Account; 4]) -> (u64, Result<(), Refusal>) {
        let [a, b, c, d] = accounts;
        let mut done = 0;
        let answer = calls::accounts(&mut self.words, list, &mut done, a.lent(), b.lent(), c.lent(), d.lent());
        (done, Refusal::of(answer))
    }
}
