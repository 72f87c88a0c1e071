//! Everything that a call over four accounts is handed or lent, each in a room of its own with guards around it.

use yshturpa::calls::{accounts, Account};

use crate::guard::room::Room;

/// What an account is handed: `table`, `settings`, `entry`, `exit`; the others are lent to it.
#[derive(Default)]
pub struct Rooms {
    pub table: Room<u8>,
    pub settings: Room<u64>,
    pub entry: Room<u8>,
    pub exit: Room<u8>,
    pub state: Room<u64>,
    pub rows: Room<u64>,
    pub equity: Room<u64>,
    pub trades: Room<u64>,
    pub status: Room<u64>,
}

/// What an account writes.
#[derive(Debug, Clone, PartialEq, Eq)]
pub struct Held {
    pub state: Vec<u64>,
    pub rows: Vec<u64>,
    pub equity: Vec<u64>,
    pub trades: Vec<u64>,
    pub status: Vec<u64>,
}

/// What a caller has in hand for an account, to put back after a damaged call.
#[derive(Clone)]
pub struct Kept {
    table: Vec<u8>,
    settings: Vec<u64>,
    lists: [Vec<u8>; 2],
    held: Held,
}

impl Rooms {
    fn bytes(&self) -> [&Room<u8>; 3] {
        [&self.table, &self.entry, &self.exit]
    }

    fn written(&self) -> [&Room<u64>; 5] {
        [&self.state, &self.rows, &self.equity, &self.trades, &self.status]
    }

    fn lay(&mut self) {
        for room in [&mut self.table, &mut self.entry, &mut self.exit] {
            room.lay();
        }
        for room in [
            &mut self.settings,
            &mut self.state,
            &mut self.rows,
            &mut self.equity,
            &mut self.trades,
            &mut self.status,
        ] {
            room.lay();
        }
    }

    fn lend(&mut self) -> Account<'_> {
        Account {
            table: self.table.lent(),
            settings: self.settings.lent(),
            entry: self.entry.lent(),
            exit: self.exit.lent(),
            state: self.state.lent_mut(),
            rows: self.rows.lent_mut(),
            equity: self.equity.lent_mut(),
            trades: self.trades.lent_mut(),
            status: self.status.lent_mut(),
        }
    }

    /// No guard was touched, and nothing that was only handed over.
    fn sound(&self) -> bool {
        let handed = self.bytes().iter().all(|room| room.is_unchanged()) && self.settings.is_unchanged();
        let guards = self.bytes().iter().all(|room| room.guards_hold())
            && self.settings.guards_hold()
            && self.written().iter().all(|room| room.guards_hold());
        handed && guards
    }

    /// What the account held before the call.
    pub fn held(&self) -> Held {
        let [state, rows, equity, trades, status] = self.written().map(|room| room.content.clone());
        Held {
            state,
            rows,
            equity,
            trades,
            status,
        }
    }

    fn left(&self, held: &Held) -> bool {
        let lists = [&held.state, &held.rows, &held.equity, &held.trades, &held.status];
        self.written().iter().zip(lists).all(|(room, list)| room.lent() == list)
    }

    fn hold(&mut self, held: &Held) {
        self.state.fill(&held.state);
        self.rows.fill(&held.rows);
        self.equity.fill(&held.equity);
        self.trades.fill(&held.trades);
        self.status.fill(&held.status);
    }

    pub fn keep(&self) -> Kept {
        Kept {
            table: self.table.content.clone(),
            settings: self.settings.content.clone(),
            lists: [self.entry.content.clone(), self.exit.content.clone()],
            held: self.held(),
        }
    }

    pub fn put_back(&mut self, kept: &Kept) {
        self.table.fill(&kept.table);
        self.settings.fill(&kept.settings);
        self.entry.fill(&kept.lists[0]);
        self.exit.fill(&kept.lists[1]);
        self.hold(&kept.held);
    }
}

/// A call: the stream, its bars, the count of those done, and the accounts.
#[derive(Default)]
pub struct Lent {
    pub stream: Room<u64>,
    pub bars: Room<u64>,
    pub done: Room<u64>,
    pub accounts: [Rooms; 4],
}

/// What a call comes to.
pub struct After {
    pub answer: u64,
    pub done: u64,
    pub stream: Vec<u64>,
    pub accounts: [Held; 4],
}

impl Lent {
    /// Makes the call, and says what is wrong with it beside what it should come to.
    pub fn call(&mut self, after: &After) -> Result<(), String> {
        self.done.fill(&[0x0ddb_a115]);
        for room in [&mut self.stream, &mut self.bars, &mut self.done] {
            room.lay();
        }
        self.accounts.iter_mut().for_each(Rooms::lay);
        let (stream, bars, done) = (&mut self.stream, &self.bars, &mut self.done);
        let [a, b, c, d] = self.accounts.each_mut().map(Rooms::lend);
        let answer = accounts(stream.lent_mut(), bars.lent(), &mut done.lent_mut()[0], a, b, c, d);
        if answer != after.answer {
            return Err(format!("answers {answer:x}, the model {:x}", after.answer));
        }
        if self.done.lent() != [after.done] || self.stream.lent() != after.stream {
            let (done, stream) = (self.done.lent(), self.stream.lent());
            return Err(format!("done {done:?} and not {}, stream {stream:x?}", after.done));
        }
        let words = [&self.stream, &self.bars, &self.done];
        if !words.iter().all(|room| room.guards_hold()) || !self.bars.is_unchanged() {
            return Err("a guard around the stream, or a bar, was touched".into());
        }
        for (number, (rooms, held)) in self.accounts.iter().zip(&after.accounts).enumerate() {
            if !rooms.sound() {
                return Err(format!(
                    "account {number}: a guard, or what was only handed over, was touched"
                ));
            }
            if !rooms.left(held) {
                let (status, model) = (rooms.status.lent(), &held.status);
                return Err(format!(
                    "account {number} is not as it would be alone: status {status:x?} and not {model:x?}"
                ));
            }
        }
        Ok(())
    }

    /// Goes on with what a call came to.
    pub fn go_on(&mut self, after: &After) {
        self.stream.fill(&after.stream);
        for (rooms, held) in self.accounts.iter_mut().zip(&after.accounts) {
            rooms.hold(held);
        }
    }
}
