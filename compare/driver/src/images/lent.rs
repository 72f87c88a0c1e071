//! What is lent to a dump and to a restore, between guards.

use yshturpa::calls;
use yshturpa::layout::STATE_WORDS;

use super::{need, same, same_bytes, Outcome};
use crate::guard::room::{Element, Room};
use crate::model::image;
use crate::ours::Ours;

/// What an area holds past the image.
const PAST: u8 = 0x9d;
/// What the state and the rows hold before a restore.
const STALE: u64 = 0x5a5a_a5a5_5a5a_a5a5;

pub fn room<T: Element + Default>(content: Vec<T>) -> Room<T> {
    let mut room = Room::default();
    room.content = content;
    room.lay();
    room
}

/// An area of which the first bytes of the order of writing were written; `room.content` is what the model says that it holds.
pub struct Area {
    room: Room<u8>,
    order: Vec<usize>,
    written: usize,
}

impl Area {
    /// A cleared area of an image's size, and `longer` bytes past it.
    pub fn cleared(size: usize, longer: usize) -> Self {
        let mut content = vec![0; size];
        content.resize(size + longer, PAST);
        Self {
            room: room(content),
            order: image::order(size).collect(),
            written: 0,
        }
    }

    /// Writes the next stretch, up to byte `upto` of the order.
    pub fn write(&mut self, run: &Ours, model: &[u8], upto: usize) -> Outcome {
        let (from, room) = (self.written as u64, self.room.lent_mut());
        let answer = calls::dump(&run.settings, &run.state, &run.rows, room, from, upto as u64);
        same("a dump's answer", answer, 0)?;
        let end = upto.min(self.order.len());
        for &at in &self.order[self.written..end] {
            self.room.content[at] = model[at];
        }
        self.written = end;
        Ok(())
    }

    pub fn is_as_modelled(&self) -> Outcome {
        need(self.room.guards_hold(), || "a dump touched a guard of its area".into())?;
        let what = format!("the area with {} bytes written", self.written);
        same_bytes(&what, self.room.lent(), &self.room.content)
    }

    /// The bytes where the image stands, or will.
    pub fn image(&self) -> &[u8] {
        &self.room.lent()[..self.order.len()]
    }
}

/// The rooms of a restore.
pub struct Back {
    pub state: Room<u64>,
    pub rows: Room<u64>,
}

impl Back {
    /// Stale rooms, the rows' with `words` words.
    pub fn stale(words: usize) -> Self {
        Self {
            state: room(vec![STALE; STATE_WORDS]),
            rows: room(vec![STALE; words]),
        }
    }

    pub fn restore(&mut self, settings: &[u64], image: &[u8]) -> u64 {
        calls::restore(settings, self.state.lent_mut(), image, self.rows.lent_mut())
    }

    pub fn guards_hold(&self) -> Outcome {
        let hold = self.state.guards_hold() && self.rows.guards_hold();
        need(hold, || "a restore touched a guard".into())
    }

    pub fn is_unchanged(&self) -> Outcome {
        let unchanged = self.state.is_unchanged() && self.rows.is_unchanged();
        need(unchanged, || "a refused restore changed what was lent".into())
    }
}
