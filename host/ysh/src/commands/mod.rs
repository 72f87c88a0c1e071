//! One module a command: what was asked to what is written.

pub mod accounts;
pub mod blocked;
pub mod compare;
pub mod compile;
pub mod completions;
pub mod depth;
pub mod dump;
pub mod holdup;
pub mod manual;
pub mod range;
pub mod run;
pub mod schema;
pub mod short;
pub mod show;
pub mod trials;
pub mod why;

use std::io::{self, Write};

use crate::problem::Problem;
use crate::show::shown;

/// What a command writes, what it has to say beside, and what went wrong.
#[derive(Default)]
pub struct Answer {
    pub text: String,
    /// What writes the rest of the text, where that may be long.
    pub rest: Option<Rest>,
    /// Whether the text is for programs, and no line may be put before it.
    pub document: bool,
    /// What may make the answer another than was meant: the first lines of it.
    pub doubts: Vec<String>,
    pub notes: Vec<String>,
    pub problems: Vec<Problem>,
    /// Whether something does not fit.
    pub unfit: bool,
    /// Whether two runs differ.
    pub differs: bool,
}

/// What writes a text piece by piece.
pub type Rest = Box<dyn FnOnce(&mut dyn Write) -> io::Result<()> + Send>;

/// The status where something does not fit in the time that is there.
const UNFIT: u8 = 3;

/// The status where two runs differ.
const DIFFERS: u8 = 1;

/// Lines for standard error, and the exit status.
pub struct Said {
    pub lines: Vec<String>,
    pub status: u8,
}

impl Answer {
    pub fn line(&mut self, line: impl AsRef<str>) {
        self.text.push_str(line.as_ref());
        self.text.push('\n');
    }

    /// What a file has to say, with its name.
    pub fn notes(&mut self, file: &str, notes: &[String]) {
        self.notes.extend(notes.iter().map(|note| shown(&format!("{file}: note: {note}"))));
    }

    /// What is doubtful of a file, with its name.
    pub fn doubts(&mut self, file: &str, doubts: &[String]) {
        self.doubts.extend(doubts.iter().map(|doubt| shown(&format!("WARNING  {file}: {doubt}"))));
    }

    /// What is written: a text, and what writes more; what is said beside it.
    pub fn into_parts(self) -> (String, Option<Rest>, Said) {
        let others = self.unfit.then_some(UNFIT).into_iter().chain(self.differs.then_some(DIFFERS));
        let status = self.problems.iter().map(Problem::status).chain(others).max().unwrap_or(0);
        let lines = self.notes.into_iter().chain(self.problems.iter().map(Problem::to_string));
        match self.document {
            true => (self.text, self.rest, Said { lines: self.doubts.into_iter().chain(lines).collect(), status }),
            false => {
                let first: String = self.doubts.iter().map(|doubt| format!("{doubt}\n")).collect();
                (first + &self.text, self.rest, Said { lines: lines.collect(), status })
            }
        }
    }
}

impl From<Problem> for Answer {
    fn from(problem: Problem) -> Answer {
        Answer { problems: vec![problem], ..Answer::default() }
    }
}
