//! Bars from a CSV file: columns by their names, a bar a line. What is wrong in a file is told with its line and column.

mod cells;
mod columns;
mod ends;
mod file;
mod form;
mod input;
mod odd;
mod over;

pub use file::{BarsFile, Part};
pub use form::Form;
pub use input::Input;
pub use over::{one_by_one, over, At, Keep, Nothing, OnRefusal, Refusals, Seen, Stepped, Way};

/// What is wrong in a line, and in which column, counted from 0.
#[derive(Clone, Debug, PartialEq, Eq)]
pub struct Wrong {
    pub column: usize,
    pub text: String,
}

impl Wrong {
    pub fn new(column: usize, text: impl Into<String>) -> Wrong {
        Wrong { column, text: text.into() }
    }
}

/// A cell as it is told: in quotes, and not longer than a line has room for.
fn quoted(cell: &[u8]) -> String {
    const MOST: usize = 40;
    let text = String::from_utf8_lossy(&cell[..cell.len().min(4 * MOST)]);
    match text.chars().count() > MOST {
        true => format!("{:?} and so on", text.chars().take(MOST).collect::<String>()),
        false => format!("{text:?}"),
    }
}
