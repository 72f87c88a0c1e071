//! Which column of a file holds what, by the names in its first line.

use csv::ByteRecord;
use yshturpa::Bar;

use super::{quoted, Wrong};

/// The columns that are no slot's, in the order in which a bar has them; the last two may be left out together.
const PRICES: [&str; 5] = ["open", "high", "low", "close", "volume"];
const TIME: &str = "time";
const MARK: &str = "mark";
const RATE: &str = "rate";

/// What stands where.
#[derive(Clone, Debug, PartialEq, Eq)]
pub struct Columns {
    names: Vec<String>,
    pub time: usize,
    pub prices: [usize; 5],
    pub slots: Vec<usize>,
    pub funding: Option<[usize; 2]>,
}

/// The column of a slot: its name; `slot:NAME` for a name that a price, the time or the funding has.
fn column_of_slot(name: &str) -> String {
    let taken = PRICES.contains(&name) || [TIME, MARK, RATE].contains(&name);
    if taken {
        format!("slot:{name}")
    } else {
        name.to_owned()
    }
}

impl Columns {
    /// The columns of a first line, some of them meant by another name, for slots of these names.
    pub fn of(header: &ByteRecord, meant: &[(String, String)], slots: &[String]) -> Result<Columns, Wrong> {
        let mut names = Vec::with_capacity(header.len());
        for (column, cell) in header.iter().enumerate() {
            match std::str::from_utf8(cell) {
                Ok(name) => names.push(name.trim().to_owned()),
                Err(_) => return Err(Wrong::new(column, format!("{} is no UTF-8 text", quoted(cell)))),
            }
        }
        let there = names.clone();
        for (from, to) in meant {
            match place(&there, from)? {
                Some(at) => names[at] = to.clone(),
                None => return Err(Wrong::new(there.len(), format!("no column is called {from:?} (--columns)"))),
            }
        }
        let needed = |name: &str| place(&names, name)?.ok_or_else(|| Wrong::new(names.len(), missing(name, slots)));
        let slot = |name: &String| needed(column_of_slot(name.trim()).as_str());
        let [open, high, low, close, volume] = PRICES;
        let columns = Columns {
            time: needed(TIME)?,
            prices: [needed(open)?, needed(high)?, needed(low)?, needed(close)?, needed(volume)?],
            slots: slots.iter().map(slot).collect::<Result<_, _>>()?,
            funding: funding(&names)?,
            names: Vec::new(),
        };
        if let Some(twice) = columns.slots.iter().enumerate().find(|(k, at)| columns.slots[..*k].contains(at)) {
            let text = format!("{:?} is the name of two slots, and a column holds one", slots[twice.0]);
            return Err(Wrong::new(*twice.1, text));
        }
        Ok(Columns { names, ..columns })
    }

    /// The time in a line, where there is one.
    pub fn time_of(&self, cells: &ByteRecord) -> Option<i64> {
        super::cells::time(std::str::from_utf8(cells.get(self.time)?).ok()?.trim())
    }

    /// The columns that nothing reads.
    pub fn unread(&self) -> Vec<&str> {
        let read = |at: &usize| {
            *at == self.time
                || self.prices.contains(at)
                || self.slots.contains(at)
                || self.funding.is_some_and(|both| both.contains(at))
        };
        (0..self.names.len()).filter(|at| !read(at)).map(|at| &self.names[at][..]).collect()
    }

    pub fn count(&self) -> usize {
        self.names.len()
    }

    /// A column as it is told: its number, counted from 1, and its name.
    pub fn told(&self, column: usize) -> String {
        match self.names.get(column) {
            Some(name) if !name.is_empty() => format!("column {} ({name})", column + 1),
            _ => format!("column {}", column + 1),
        }
    }

    /// What the engine refuses a bar for (11): the first of its numbers, by column, that is not finite.
    pub fn not_finite(&self, bar: &Bar) -> Option<Wrong> {
        let prices = self.prices.iter().zip([bar.open, bar.high, bar.low, bar.close, bar.volume]);
        let slots = self.slots.iter().zip(&bar.slots).filter_map(|(at, slot)| Some((at, (*slot)?)));
        let funding = self.funding.iter().flatten().zip(bar.funding.iter().flat_map(|f| [f.mark, f.rate]));
        let all = prices.chain(slots).chain(funding).filter(|(_, x)| !x.is_finite());
        let (column, x) = all.min_by_key(|(at, _)| **at)?;
        let absent = if self.slots.contains(column) { "; an absent value is an empty cell" } else { "" };
        Some(Wrong::new(*column, format!("{x} is not finite{absent}")))
    }
}

/// What is said of a column that is not there; of a slot's, that nobody works its values out here.
fn missing(name: &str, slots: &[String]) -> String {
    let said = format!("no column is called {name:?}, and one was expected");
    match slots.iter().any(|slot| column_of_slot(slot.trim()) == name) {
        false => said,
        true => {
            let all: Vec<String> = slots.iter().map(|slot| column_of_slot(slot.trim())).collect();
            format!("{said}; indicators are not worked out here, and the rules read {}", all.join(", "))
        }
    }
}

fn place(names: &[String], name: &str) -> Result<Option<usize>, Wrong> {
    let mut found = names.iter().enumerate().filter(|(_, there)| *there == name).map(|(at, _)| at);
    let first = found.next();
    match found.next() {
        Some(second) => Err(Wrong::new(second, format!("a second column is called {name:?}"))),
        None => Ok(first),
    }
}

/// Mark and rate, where the file has them.
fn funding(names: &[String]) -> Result<Option<[usize; 2]>, Wrong> {
    let alone = |at, other| Err(Wrong::new(at, format!("funding is mark and rate, and no column is called {other:?}")));
    match (place(names, MARK)?, place(names, RATE)?) {
        (Some(mark), Some(rate)) => Ok(Some([mark, rate])),
        (Some(mark), None) => alone(mark, RATE),
        (None, Some(rate)) => alone(rate, MARK),
        (None, None) => Ok(None),
    }
}

#[cfg(test)]
mod tests {
    use super::*;

    fn of(header: &str, slots: &[&str]) -> Result<Columns, Wrong> {
        let slots: Vec<String> = slots.iter().map(|name| (*name).to_owned()).collect();
        Columns::of(&ByteRecord::from(header.split(',').collect::<Vec<_>>()), &[], &slots)
    }

    #[test]
    fn columns_stand_in_any_order() {
        let found = of("close,fast, open,time,low,high,x,volume,slot:rate,rate,mark", &["fast", "rate"]).unwrap();
        assert_eq!((found.time, found.prices), (3, [2, 5, 4, 0, 7]));
        assert_eq!((&found.slots[..], found.funding), (&[1, 8][..], Some([10, 9])));
        assert_eq!((found.unread(), found.told(2)), (vec!["x"], "column 3 (open)".to_owned()));
    }

    #[test]
    fn what_is_missing_or_twice_there_is_told() {
        let whole = "time,open,high,low,close,volume";
        let wrong = |header: String, slots: &[&str]| {
            let Wrong { column, text } = of(&header, slots).unwrap_err();
            (column, text)
        };
        assert_eq!(wrong("time,open".into(), &[]), (2, "no column is called \"high\", and one was expected".into()));
        assert_eq!(wrong(whole.into(), &["fast"]).0, 6);
        assert_eq!(wrong(format!("{whole},open"), &[]), (6, "a second column is called \"open\"".into()));
        assert_eq!(wrong(format!("{whole},mark"), &[]).0, 6);
        assert_eq!(wrong(format!("{whole},a"), &["a", "a"]).0, 6);
    }
}
