//! The runs that are done, kept one by one: what was interrupted goes on from there. A line each, after one that says of which runs it is.

use std::fs::{self, File, OpenOptions};
use std::io::{self, Write};
use std::path::Path;
use std::sync::Mutex;

use serde::{Deserialize, Serialize};

use super::inputs::Inputs;
use super::row::Row;
use crate::files::name_of;
use crate::problem::Problem;

const WHAT: &str = "journal of ysh trials, 1";

#[derive(PartialEq, Serialize, Deserialize)]
#[serde(deny_unknown_fields)]
struct Head {
    what: String,
    inputs: Inputs,
}

pub struct Journal {
    name: String,
    file: Mutex<File>,
}

impl Journal {
    /// A journal of these runs, and what is done of them. A file that ends in the middle of a line was cut there: the line is gone.
    pub fn open(path: &Path, inputs: &Inputs) -> Result<(Journal, Vec<Row>), Problem> {
        let name = name_of(path);
        let head = Head { what: WHAT.to_owned(), inputs: inputs.clone() };
        let text = match fs::read(path) {
            Ok(text) => text,
            Err(error) if error.kind() == io::ErrorKind::NotFound => Vec::new(),
            Err(error) => return Err(Problem::io(name, "read", &error)),
        };
        let whole = text.iter().rposition(|byte| *byte == b'\n').map_or(0, |end| end + 1);
        let rows = rows(&name, &text[..whole], &head)?;
        let opened = OpenOptions::new().create(true).append(true).open(path).and_then(|mut file| {
            file.set_len(whole as u64)?;
            if whole == 0 {
                file.write_all(line(&head).as_bytes())?;
            }
            Ok(file)
        });
        let file = opened.map_err(|error| Problem::io(&name, "written", &error))?;
        Ok((Journal { name, file: Mutex::new(file) }, rows))
    }

    /// Keeps a row: a line is written whole, in one go.
    pub fn keep(&self, row: &Row) -> Result<(), Problem> {
        let mut file = self.file.lock().unwrap_or_else(|poisoned| poisoned.into_inner());
        file.write_all(line(row).as_bytes()).map_err(|error| Problem::io(&self.name, "written", &error))
    }
}

fn line(of: &impl Serialize) -> String {
    serde_json::to_string(of).expect("a row is JSON") + "\n"
}

fn rows(name: &str, text: &[u8], head: &Head) -> Result<Vec<Row>, Problem> {
    let mut lines = text.split(|byte| *byte == b'\n').filter(|line| !line.is_empty());
    let wrong = |text: String| Problem::input(name, "", text);
    let Some(first) = lines.next() else { return Ok(Vec::new()) };
    let found: Head = serde_json::from_slice(first)
        .map_err(|error| wrong(format!("a journal of `ysh trials --resume` was expected: {error}")))?;
    if found != *head {
        let differs = head.inputs.differ(&found.inputs).unwrap_or_else(|| "it is of another version".to_owned());
        return Err(wrong(format!("it is the journal of other runs: {differs}")));
    }
    let row = |(at, line): (usize, &[u8])| {
        let row: Row = serde_json::from_slice(line)
            .map_err(|error| Problem::input(name, format!("line {}", at + 2), format!("no run: {error}")))?;
        let fits = row.run < head.inputs.runs() && {
            let (strategy, bars) = head.inputs.files_of(row.run);
            (&row.file, &row.bars_file) == (&strategy.file, &bars.file)
        };
        match fits {
            true => Ok(row),
            false => Err(Problem::input(name, format!("line {}", at + 2), "it is none of these runs")),
        }
    };
    lines.enumerate().map(row).collect()
}
