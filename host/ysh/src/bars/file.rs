//! A file of bars, read line by line on a thread of its own while the engine takes what was read before. No more of it is held than waits
//! to be taken.

use std::io::{self, Read};
use std::sync::atomic::Ordering;
use std::sync::mpsc::sync_channel;
use std::sync::{Mutex, MutexGuard, PoisonError};

use csv::{ByteRecord, Reader, ReaderBuilder};
use yshturpa::Bars;

use super::columns::Columns;
use super::ends::Ends;
use super::form::Form;
use super::input::{Bytes, Input, Reached};
use super::odd::Odd;
use super::Wrong;
use crate::problem::Problem;

/// Bars that are handed over together, and how many such parts may wait.
const PART: usize = 4096;
const WAITING: usize = 4;

/// Bytes that the reader asks for at once.
const ROOM: usize = 1 << 16;

/// A byte order mark, with which some programs begin a text.
const MARK: &[u8] = b"\xef\xbb\xbf";

/// A file of bars: where it comes from, and what stands in which column.
pub struct BarsFile {
    pub name: String,
    input: Input,
    form: Form,
    pub columns: Columns,
    reached: Reached,
    /// Reading that was begun with the names of the columns.
    begun: Mutex<Option<Lines>>,
    /// What looked wrong when it was last read.
    odd: Mutex<Odd>,
}

/// Some bars of a file, the line of each, and how many bytes of the file were read with them.
pub struct Part {
    pub bars: Bars,
    pub lines: Vec<u64>,
    pub reached: u64,
}

/// What ends the reading: a line that is no bar, or a file that cannot be read on.
enum Stopped {
    Wrong(u64, Wrong),
    Failed(String),
}

type Read1 = Result<Part, Stopped>;

/// The lines of a file, one after another.
struct Lines {
    reader: Reader<Ends<Bytes>>,
    cells: ByteRecord,
}

impl Lines {
    /// From the first line on.
    fn open(input: &Input, form: &Form, reached: &Reached) -> io::Result<Lines> {
        let mut bytes = input.open(reached)?;
        let mut first = Vec::with_capacity(MARK.len());
        bytes.by_ref().take(MARK.len() as u64).read_to_end(&mut first)?;
        if first == MARK {
            first.clear();
        }
        let text: Bytes = Box::new(io::Cursor::new(first).chain(bytes));
        let mut builder = ReaderBuilder::new();
        builder.has_headers(false).flexible(true).delimiter(form.delimiter).buffer_capacity(ROOM);
        Ok(Lines { reader: builder.from_reader(Ends::new(text)), cells: ByteRecord::new() })
    }

    /// The next line's number, its cells being read; none at the end.
    fn next(&mut self) -> io::Result<Option<u64>> {
        let byte = self.reader.position().byte();
        match self.reader.read_byte_record(&mut self.cells) {
            Ok(true) => Ok(Some(self.reader.get_mut().after(byte))),
            Ok(false) => Ok(None),
            Err(error) => Err(match error.into_kind() {
                csv::ErrorKind::Io(error) => error,
                other => io::Error::other(format!("{other:?}")),
            }),
        }
    }
}

impl BarsFile {
    /// A file that has a column for each of these slots.
    pub fn open(input: Input, form: &Form, slots: &[String]) -> Result<BarsFile, Problem> {
        let (name, reached) = (input.name.clone(), Reached::default());
        let unread = |error: &io::Error| {
            let problem = Problem::io(&name, "read", error);
            Problem { text: format!("{}; a file of bars (CSV) was expected", problem.text), ..problem }
        };
        let mut lines = Lines::open(&input, form, &reached).map_err(|error| unread(&error))?;
        let line = lines.next().map_err(|error| unread(&error))?;
        let wrong = |Wrong { column, text }| {
            Problem::input(&name, format!("line {}, column {}", line.unwrap_or(1), column + 1), text)
        };
        if line.is_none() {
            return Err(wrong(Wrong::new(0, "the file is empty; the names of its columns were expected")));
        }
        let columns = Columns::of(&lines.cells, &form.columns, slots).map_err(wrong)?;
        let (begun, odd) = (Mutex::new(Some(lines)), Mutex::default());
        Ok(BarsFile { name, input, form: form.clone(), columns, reached, begun, odd })
    }

    /// The bytes of the file as it is stored, where that is known.
    pub fn length(&self) -> Option<u64> {
        self.input.length()
    }

    fn failed(&self, error: impl ToString) -> Problem {
        Problem::input(&self.name, "", format!("cannot be read: {}", error.to_string()))
    }

    /// The lines after the first: those that were begun, or from the file again.
    fn lines(&self) -> io::Result<Lines> {
        if let Some(lines) = held(&self.begun).take() {
            return Ok(lines);
        }
        let mut lines = Lines::open(&self.input, &self.form, &self.reached)?;
        lines.next()?;
        Ok(lines)
    }

    /// The time of each line in turn, where it has one; how many lines there are. What is no bar is told by a run.
    pub fn times(&self, mut see: impl FnMut(u64, i64)) -> Result<u64, Problem> {
        let mut lines = self.lines().map_err(|error| self.failed(error))?;
        let mut place = 0;
        while lines.next().map_err(|error| self.failed(error))?.is_some() {
            if let Some(time) = self.columns.time_of(&lines.cells) {
                see(place, time);
            }
            place += 1;
        }
        Ok(place)
    }

    /// What is wrong in a line, as it is told.
    pub fn problem(&self, line: u64, wrong: Wrong) -> Problem {
        Problem::input(&self.name, format!("line {line}, {}", self.columns.told(wrong.column)), wrong.text)
    }

    /// What looked wrong in the bars that were read last, a sentence each; an error where reading is strict.
    pub fn doubts(&self, strict: bool) -> Result<Vec<String>, Problem> {
        let told = held(&self.odd).told();
        match told.first() {
            Some((line, text)) if strict => {
                Err(Problem::input(&self.name, format!("line {line}"), format!("{text} (--strict)")))
            }
            _ => Ok(told.into_iter().map(|(line, text)| format!("{text}; the first in line {line}")).collect()),
        }
    }

    /// Hands over the bars, part by part, until there are no more or the taker has enough.
    pub fn each(&self, mut take: impl FnMut(Part) -> Result<bool, Problem>) -> Result<(), Problem> {
        let lines = self.lines().map_err(|error| self.failed(error))?;
        let (sender, receiver) = sync_channel::<Read1>(WAITING);
        std::thread::scope(|scope| {
            // A taker that has gone ends the reading: what is sent to it fails.
            scope.spawn(move || {
                let odd = self.read(lines, |part| sender.send(part).is_ok());
                *held(&self.odd) = odd;
            });
            let receiver = receiver;
            for part in receiver.iter() {
                let part = part.map_err(|stopped| match stopped {
                    Stopped::Wrong(line, wrong) => self.problem(line, wrong),
                    Stopped::Failed(error) => self.failed(error),
                })?;
                if !take(part)? {
                    break;
                }
            }
            Ok(())
        })
    }

    fn fresh(&self) -> Part {
        let bars = Bars::with_room(self.columns.slots.len(), PART);
        Part { bars, lines: Vec::with_capacity(PART), reached: 0 }
    }

    /// Reads the bars, up to the first line that is none; what comes before it is handed over first. What looked wrong in them.
    fn read(&self, mut lines: Lines, mut send: impl FnMut(Read1) -> bool) -> Odd {
        let (mut slots, mut odd) = (Vec::new(), Odd::default());
        let mut part = self.fresh();
        let stopped = loop {
            let line = match lines.next() {
                Ok(Some(line)) => line,
                Ok(None) => break None,
                Err(error) => break Some(Stopped::Failed(error.to_string())),
            };
            match self.columns.push(&lines.cells, &mut slots, &mut part.bars) {
                Ok((time, prices)) => odd.look(line, time, prices),
                Err(wrong) => break Some(Stopped::Wrong(line, wrong)),
            }
            part.lines.push(line);
            if part.lines.len() == PART {
                part.reached = self.reached.load(Ordering::Relaxed);
                if !send(Ok(std::mem::replace(&mut part, self.fresh()))) {
                    return odd;
                }
            }
        };
        part.reached = self.reached.load(Ordering::Relaxed);
        let there = part.lines.is_empty() || send(Ok(part));
        if let (true, Some(stopped)) = (there, stopped) {
            send(Err(stopped));
        }
        odd
    }
}

/// What a lock holds: nothing that is held here is left half done.
fn held<T>(lock: &Mutex<T>) -> MutexGuard<'_, T> {
    lock.lock().unwrap_or_else(PoisonError::into_inner)
}
