//! A line now and then on standard error, so that a long run can be watched.

use std::time::{Duration, Instant};

const EVERY: Duration = Duration::from_secs(10);

pub struct Progress {
    name: &'static str,
    total: u64,
    began: Instant,
    said: Instant,
}

impl Progress {
    pub fn new(name: &'static str, total: u64) -> Self {
        let now = Instant::now();
        Self {
            name,
            total,
            began: now,
            said: now,
        }
    }

    /// `done` of the total are done.
    pub fn at(&mut self, done: u64, more: impl Fn() -> String) {
        if self.said.elapsed() < EVERY {
            return;
        }
        self.said = Instant::now();
        let seconds = self.began.elapsed().as_secs();
        eprintln!("{}: {done} of {} in {seconds} s, {}", self.name, self.total, more());
    }
}
