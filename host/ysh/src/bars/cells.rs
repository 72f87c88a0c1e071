//! A line's cells to a bar.

use csv::ByteRecord;
use yshturpa::{Bars, Funding};

use super::columns::Columns;
use super::{quoted, Wrong};
use crate::times;

/// A line, with the text that all its cells are, where it is one.
struct Line<'a> {
    cells: &'a ByteRecord,
    text: Option<&'a str>,
}

impl Columns {
    /// Adds the bar of a line; its time and prices. The slots' room is lent, so that a line allocates nothing.
    pub fn push(
        &self,
        cells: &ByteRecord,
        slots: &mut Vec<Option<f64>>,
        bars: &mut Bars,
    ) -> Result<(i64, [f64; 5]), Wrong> {
        self.whole(cells)?;
        let line = Line { cells, text: std::str::from_utf8(cells.as_slice()).ok() };
        let mut prices = [0.0; 5];
        for (price, &column) in prices.iter_mut().zip(&self.prices) {
            *price = line.number(column)?;
        }
        slots.clear();
        for &column in &self.slots {
            slots.push(line.maybe(column)?);
        }
        let funding = match self.funding {
            None => None,
            Some(both) => line.funding(both)?,
        };
        let time = line.time(self.time)?;
        bars.push_parts(time, prices, slots.iter().copied(), funding);
        Ok((time, prices))
    }

    /// As many cells as there are columns.
    fn whole(&self, line: &ByteRecord) -> Result<(), Wrong> {
        let (cells, columns) = (line.len(), self.count());
        match cells.cmp(&columns) {
            std::cmp::Ordering::Equal => Ok(()),
            std::cmp::Ordering::Less => {
                Err(Wrong::new(cells, format!("the line ends before it: {cells} cells, and {columns} were expected")))
            }
            std::cmp::Ordering::Greater => {
                Err(Wrong::new(columns, format!("a cell too many: {cells} cells, and {columns} were expected")))
            }
        }
    }
}

/// A time as a cell has it: a whole number as it is, a date and time as its milliseconds since 1970.
pub fn time(cell: &str) -> Option<i64> {
    cell.parse().ok().or_else(|| times::milliseconds(cell))
}

impl Line<'_> {
    /// A cell without the blanks around it; a text that no number is where it is no UTF-8.
    fn cell(&self, column: usize) -> &str {
        let whole = self.text.and_then(|text| text.get(self.cells.range(column)?));
        let cell = whole.or_else(|| std::str::from_utf8(&self.cells[column]).ok()).unwrap_or("not UTF-8");
        match cell.as_bytes() {
            [first, .., last] if *first > b' ' && *last > b' ' => cell,
            _ => cell.trim(),
        }
    }

    fn wrong(&self, column: usize, said: &str) -> Wrong {
        Wrong::new(column, format!("{} {said}", quoted(&self.cells[column])))
    }

    fn time(&self, column: usize) -> Result<i64, Wrong> {
        let said = "is no whole number of 64 bits; a time was expected, such as milliseconds since 1970 or 2026-01-05T10:31:00Z";
        time(self.cell(column)).ok_or_else(|| self.wrong(column, said))
    }

    fn number(&self, column: usize) -> Result<f64, Wrong> {
        self.cell(column).parse().map_err(|_| self.wrong(column, "is no number"))
    }

    /// A number; none where the cell is empty.
    fn maybe(&self, column: usize) -> Result<Option<f64>, Wrong> {
        match self.cell(column).is_empty() {
            true => Ok(None),
            false => self.number(column).map(Some),
        }
    }

    fn funding(&self, [mark, rate]: [usize; 2]) -> Result<Option<Funding>, Wrong> {
        let alone =
            |column| Err(Wrong::new(column, "it is empty beside the other; mark and rate were expected together"));
        match (self.maybe(mark)?, self.maybe(rate)?) {
            (Some(mark), Some(rate)) => Ok(Some(Funding { mark, rate })),
            (None, None) => Ok(None),
            (None, Some(_)) => alone(mark),
            (Some(_), None) => alone(rate),
        }
    }
}
