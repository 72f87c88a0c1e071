//! The calls of a loaded library that a run needs: `yshturpa`'s, by the functions of another file. All the `unsafe` there is.
#![allow(unsafe_code)]

use std::path::Path;

use yshturpa::calls::{finish, fresh, steps, translate};
use yshturpa::Refusal;

/// A library that was loaded. Its code is trusted as the program's own is: whoever names the file answers for it.
pub struct Library {
    translate: translate::Function,
    fresh: fresh::Function,
    steps: steps::Function,
    finish: finish::Function,
    /// The functions above are this one's: it goes last.
    _library: libloading::Library,
}

/// The rooms that a step and finish write to.
pub struct Rooms<'a> {
    pub state: &'a mut [u64],
    pub rows: &'a mut [u64],
    pub equity: &'a mut [u64],
    pub trades: &'a mut [u64],
}

// SAFETY, of every call below: that the functions of the file are those of include/yshturpa.h is the word of whoever names it, and so is what the file
// does when it is loaded.
impl Library {
    /// Loads a shared object. What went wrong is told in the system's words.
    pub fn open(path: &Path) -> Result<Library, String> {
        let told = |error: libloading::Error| error.to_string();
        unsafe {
            let library = libloading::Library::new(path).map_err(told)?;
            Ok(Library {
                translate: *library.get(b"ysh_translate\0").map_err(told)?,
                fresh: *library.get(b"ysh_fresh\0").map_err(told)?,
                steps: *library.get(b"ysh_steps\0").map_err(told)?,
                finish: *library.get(b"ysh_finish\0").map_err(told)?,
                _library: library,
            })
        }
    }

    pub(crate) fn translate(&self, table: &[u8], tree: u64, room: &mut [u8]) -> Result<u64, Refusal> {
        let mut used = 0;
        Refusal::of(unsafe { translate::by(self.translate, table, tree, room, &mut used) })?;
        Ok(used)
    }

    pub(crate) fn fresh(&self, settings: &[u64], state: &mut [u64]) -> Result<(), Refusal> {
        Refusal::of(unsafe { fresh::by(self.fresh, settings, state) })
    }

    /// Many bars, one after another: how many were done, and what stopped it.
    pub(crate) fn steps(
        &self,
        settings: &[u64],
        rooms: Rooms,
        bars: &[u64],
        lists: &[Vec<u8>; 4],
    ) -> (u64, Result<(), Refusal>) {
        let Rooms { state, rows, equity, trades } = rooms;
        let [entry, exit, short_entry, short_exit] = lists;
        let lists = [&entry[..], exit, short_entry, short_exit];
        let mut done = 0;
        let answer = unsafe { steps::by(self.steps, settings, state, bars, rows, equity, trades, lists, &mut done) };
        (done, Refusal::of(answer))
    }

    pub(crate) fn finish(&self, settings: &[u64], rooms: Rooms, metrics: &mut [u64]) -> Result<(), Refusal> {
        let Rooms { state, rows, equity, trades } = rooms;
        Refusal::of(unsafe { finish::by(self.finish, settings, state, rows, equity, trades, metrics) })
    }
}
