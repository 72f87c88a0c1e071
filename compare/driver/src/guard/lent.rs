//! Everything that a call is handed or lent, each in a room of its own with guards around it.

use super::room::Room;
use crate::model::refusals;

/// Handed over: `table`, `settings`, `bar`, `lists`. Lent, by some call: the others; `out` holds the words behind the pointers.
#[derive(Default)]
pub struct Lent {
    pub table: Room<u8>,
    pub settings: Room<u64>,
    pub bar: Room<u64>,
    pub lists: [Room<u8>; 4],
    pub state: Room<u64>,
    pub rows: Room<u64>,
    pub equity: Room<u64>,
    pub trades: Room<u64>,
    pub metrics: Room<u64>,
    pub steps: Room<u8>,
    pub tests: Room<u64>,
    pub out: Room<u64>,
}

impl Lent {
    fn bytes(&self) -> [&Room<u8>; 6] {
        let [entry, exit, short_entry, short_exit] = &self.lists;
        [&self.table, entry, exit, short_entry, short_exit, &self.steps]
    }

    fn words(&self) -> [&Room<u64>; 9] {
        [
            &self.settings,
            &self.bar,
            &self.state,
            &self.rows,
            &self.equity,
            &self.trades,
            &self.metrics,
            &self.tests,
            &self.out,
        ]
    }

    /// Begins a call: every room is empty but for the words behind pointers.
    pub fn begin(&mut self) {
        self.bytes_mut().into_iter().for_each(|room| room.content.clear());
        self.words_mut().into_iter().for_each(|room| room.content.clear());
        self.out.fill(&[0x0ddb_a115, 0x0ddb_a116]);
    }

    fn bytes_mut(&mut self) -> [&mut Room<u8>; 6] {
        let [entry, exit, short_entry, short_exit] = &mut self.lists;
        [&mut self.table, entry, exit, short_entry, short_exit, &mut self.steps]
    }

    fn words_mut(&mut self) -> [&mut Room<u64>; 9] {
        [
            &mut self.settings,
            &mut self.bar,
            &mut self.state,
            &mut self.rows,
            &mut self.equity,
            &mut self.trades,
            &mut self.metrics,
            &mut self.tests,
            &mut self.out,
        ]
    }

    pub fn lay(&mut self) {
        self.bytes_mut().into_iter().for_each(Room::lay);
        self.words_mut().into_iter().for_each(Room::lay);
    }

    /// What a step or a finish is lent, as it was before the call.
    pub fn contents(&self) -> refusals::Lent<'_> {
        refusals::Lent {
            settings: &self.settings.content,
            state: &self.state.content,
            rows: &self.rows.content,
            equity: &self.equity.content,
            trades: &self.trades.content,
        }
    }

    pub fn guards_hold(&self) -> bool {
        self.bytes().into_iter().all(Room::guards_hold) && self.words().into_iter().all(Room::guards_hold)
    }

    pub fn unchanged(&self) -> bool {
        self.bytes().into_iter().all(Room::is_unchanged) && self.words().into_iter().all(Room::is_unchanged)
    }

    /// What no call may write.
    pub fn data_unchanged(&self) -> bool {
        self.bytes()[..5].iter().all(|room| room.is_unchanged())
            && self.settings.is_unchanged()
            && self.bar.is_unchanged()
    }

    pub fn text(&self) -> String {
        let names = ["table", "entry", "exit", "short entry", "short exit", "step room"];
        let bytes = names.iter().zip(self.bytes());
        let bytes = bytes.map(|(name, room)| format!("{name}: {}", oracle::words::hex_of_bytes(&room.content)));
        let names = [
            "settings",
            "bar",
            "state",
            "rows",
            "equity",
            "trades",
            "metrics",
            "silent tests",
            "out",
        ];
        let words = names.iter().zip(self.words());
        let words = words.map(|(name, room)| format!("{name}: {:x?} then {:x?}", room.content, room.lent()));
        bytes.chain(words).collect::<Vec<_>>().join("\n")
    }
}
