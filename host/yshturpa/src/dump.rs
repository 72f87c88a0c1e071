//! The dump that a box writes when the supply drops, and a run that goes on from one.

use crate::calls;
use crate::layout::{setting, state, DUMP_HEADER, MOST_DEPTH, MOST_SLOTS, ROW_FIXED, SETTING_WORDS, STATE_WORDS};
use crate::{dump_bytes, Engine, Error, Refusal, Rows, Settings, State};

/// What an accepted image holds: a state and its rows, for a D and a K.
#[derive(Clone, Debug, PartialEq)]
pub struct Image {
    settings: [u64; SETTING_WORDS],
    depth: usize,
    state: State,
    rows: Rows,
}

impl Image {
    pub fn depth(&self) -> usize {
        self.depth
    }

    pub fn state(&self) -> &State {
        &self.state
    }

    pub fn rows(&self) -> &Rows {
        &self.rows
    }

    /// Reads an image by itself, for the D and the K that it says it has.
    pub fn of(image: &[u8]) -> Result<Image, Refusal> {
        let byte = |at: usize| usize::from(image.get(at).copied().unwrap_or(0));
        let (slots, depth) = (byte(3).min(MOST_SLOTS), (byte(6) + 256 * byte(7)).clamp(1, MOST_DEPTH));
        let settings = Settings::new(slots, depth, 0.0, crate::Sizing::FixedQty(0.0)).words();
        let (mut state, mut rows) = ([0; STATE_WORDS], vec![0; (ROW_FIXED + slots) * depth]);
        Refusal::of(calls::restore(&settings, &mut state, image, &mut rows))?;
        rows.truncate(state[state::ROWS_HELD] as usize * (ROW_FIXED + slots));
        let rows = Rows::of_words(slots, rows).expect("whole rows are held");
        Ok(Image { settings, depth, state: State { words: state }, rows })
    }

    /// An area of zero bytes after so many bytes of this image were written to it, in the order of writing.
    pub fn cut(&self, bytes: u64) -> Result<Vec<u8>, Refusal> {
        let slots = self.rows.slots();
        let mut area = vec![0; dump_bytes(self.depth as u64, slots as u64) as usize];
        let mut room = self.rows.words().to_vec();
        room.resize((ROW_FIXED + slots) * self.depth, 0);
        Refusal::of(calls::dump(&self.settings, &self.state.words, &room, &mut area, 0, bytes))?;
        Ok(area)
    }
}

/// Of so many bytes in the order of writing: those of the rows, of the header, and of the mark, which is written last.
pub fn parts_written(image: usize, bytes: usize) -> [(usize, usize); 3] {
    let body = image.saturating_sub(DUMP_HEADER);
    let sizes = [body, DUMP_HEADER - 3, 3];
    let mut left = bytes;
    sizes.map(|size| {
        let done = left.min(size);
        left -= done;
        (done, size)
    })
}

impl Engine {
    /// The image of the run as it is now.
    pub fn dump(&self) -> Result<Vec<u8>, Refusal> {
        let size = dump_bytes(self.settings[setting::DEPTH], self.slots as u64);
        let mut area = vec![0; size as usize];
        Refusal::of(calls::dump(&self.settings, &self.state, &self.rows, &mut area, 0, size))?;
        Ok(area)
    }

    /// The bytes of that image from `at` on, as many as there are and the part has place for; and how many they are. A driver that programs
    /// page after page needs a page's memory and no more.
    pub fn dump_part(&self, at: u64, part: &mut [u8]) -> Result<usize, Refusal> {
        let mut used = 0;
        Refusal::of(calls::dump_part(&self.settings, &self.state, &self.rows, at, part, &mut used))?;
        Ok(used as usize)
    }

    /// A run that goes on from an image, with no equity and no trades yet.
    pub fn restored(table: &[u8], settings: &Settings, image: &[u8]) -> Result<Engine, Error> {
        let mut engine = Engine::new(table, settings, 0, 1)?;
        Refusal::of(calls::restore(&engine.settings, &mut engine.state, image, &mut engine.rows))?;
        Ok(engine)
    }
}
