//! The clients of before against those of now: which need more, and how much.

use std::ffi::OsStr;

use super::boxes::Boxed;
use super::report::Client;
use super::units::Time;

pub struct Against {
    /// What the box of before takes.
    pub before: Time,
    pub changes: Vec<Change>,
}

/// A client by the name of its file: as it was, and as it is.
pub struct Change {
    pub client: String,
    pub before: Option<Brief>,
    pub now: Option<Brief>,
}

#[derive(Clone, Copy, Debug, PartialEq, Eq)]
pub struct Brief {
    pub rows: u64,
    pub slots: u64,
    pub dump: u64,
    pub writing: Time,
}

impl Brief {
    fn of(client: &Client) -> Brief {
        let size = &client.size;
        Brief { rows: size.rows, slots: size.slots, dump: size.dump, writing: client.written.time }
    }
}

impl Change {
    /// The time of its dump now and before; 0 where there is none.
    pub fn writing(&self) -> (Time, Time) {
        let time = |brief: &Option<Brief>| brief.map_or(Time(0), |brief| brief.writing);
        (time(&self.before), time(&self.now))
    }

    /// Whether a client that was there before needs more.
    pub fn needs_more(&self) -> bool {
        let (before, now) = self.writing();
        self.before.is_some() && now > before
    }
}

impl Against {
    pub fn of(before: Vec<Client>, boxes: &[Boxed], now: &[Client]) -> Against {
        let name = |client: &Client| client.path.file_name().map(OsStr::to_owned);
        let mut left: Vec<Option<&Client>> = before.iter().map(Some).collect();
        let mut changes = Vec::new();
        for client in now {
            let own = left.iter().position(|old| old.is_some_and(|old| name(old) == name(client)));
            let old = own.and_then(|at| left[at].take());
            let (before, now) = (old.map(Brief::of), Some(Brief::of(client)));
            changes.push(Change { client: client.file.clone(), before, now });
        }
        let gone = left.into_iter().flatten();
        changes.extend(gone.map(|old| Change { client: old.file.clone(), before: Some(Brief::of(old)), now: None }));
        Against { before: boxes.first().map_or(Time(0), |one| one.total), changes }
    }

    /// How many need more, are new, are gone.
    pub fn counts(&self) -> [u64; 3] {
        let count = |is: fn(&Change) -> bool| self.changes.iter().filter(|change| is(change)).count() as u64;
        [count(Change::needs_more), count(|change| change.before.is_none()), count(|change| change.now.is_none())]
    }
}
