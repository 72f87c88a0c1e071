//! Boxes: the clients that one holds, how long it needs power to write all their dumps, and whether it has that long.

use std::ops::Range;

use super::given::Given;
use super::report::Client;
use super::units::Time;
use crate::columns::counted;

#[derive(Clone, Debug, PartialEq, Eq)]
pub struct Boxed {
    /// Empty where all files are one box.
    pub name: String,
    /// Its clients, by their places in the report.
    pub clients: Range<usize>,
    /// Files of it that are not answered.
    pub missing: u64,
    /// Dumps of each client.
    pub copies: u64,
    pub programs: Option<u64>,
    /// All dumps, one after another; and the whole time, from the drop of the supply to the last byte.
    pub writing: Time,
    pub total: Time,
    pub typical: Option<Time>,
}

#[derive(Clone, Copy, Debug, PartialEq, Eq)]
pub enum Verdict {
    /// With so much to spare.
    Fits(Time),
    /// So much is lacking.
    Short(Time),
    /// What is answered fits, and so many files of it are not answered.
    Unknown(u64),
}

impl Boxed {
    pub fn of(name: &str, clients: Range<usize>, all: &[Client], missing: u64, given: &Given) -> Boxed {
        let copies = given.copies();
        let own = &all[clients.clone()];
        let programs: Option<u64> = own.iter().map(|client| Some(client.written.programs?.all() * copies)).sum();
        let writing = own.iter().map(|client| client.written.time).sum::<Time>() * copies;
        let typical: Option<Vec<Time>> = own.iter().map(|client| client.typical).collect();
        let typical = typical.filter(|times| !times.is_empty());
        Boxed {
            name: name.to_owned(),
            clients,
            missing,
            copies,
            programs,
            writing,
            total: given.total(writing),
            typical: typical.map(|times| given.total(times.into_iter().sum::<Time>() * copies)),
        }
    }

    pub fn dumps(&self) -> u64 {
        self.clients.len() as u64 * self.copies
    }

    pub fn verdict(&self, have: Time) -> Verdict {
        match self.missing {
            _ if self.total > have => Verdict::Short(self.total.less(have)),
            0 => Verdict::Fits(have.less(self.total)),
            missing => Verdict::Unknown(missing),
        }
    }
}

impl std::fmt::Display for Verdict {
    fn fmt(&self, f: &mut std::fmt::Formatter) -> std::fmt::Result {
        match self {
            Verdict::Fits(spare) => write!(f, "fits with {} ms to spare", spare.down()),
            Verdict::Short(lacking) => write!(f, "does not fit: {} ms short", lacking.up()),
            Verdict::Unknown(n) => {
                write!(f, "is not answered: {} missing", counted(*n, "file of it is", "files of it are"))
            }
        }
    }
}
