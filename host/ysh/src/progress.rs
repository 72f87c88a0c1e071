//! Work over many files, on every core, or over one long file, with a bar on a terminal where it takes longer than a second.

use std::io::IsTerminal;
use std::sync::atomic::{AtomicBool, Ordering};
use std::time::{Duration, Instant};

use indicatif::{ProgressBar, ProgressDrawTarget, ProgressStyle};
use rayon::prelude::*;

const QUIET: Duration = Duration::from_secs(1);

/// Whether a bar over many items is shown: then their own bars are not.
static MANY: AtomicBool = AtomicBool::new(false);

/// What a function gives for each file, in the files' order.
pub fn each<T: Sync, R: Send>(items: &[T], work: impl Fn(&T) -> R + Sync) -> Vec<R> {
    each_of("files", items, work)
}

/// What a function gives for each item, in the items' order; what the items are is told.
pub fn each_of<T: Sync, R: Send>(what: &str, items: &[T], work: impl Fn(&T) -> R + Sync) -> Vec<R> {
    let bar = Late::new(items.len() as u64, &format!("{{bar:40}} {{pos}} of {{len}} {what}, {{eta}} left"));
    MANY.store(true, Ordering::Relaxed);
    let results = items.par_iter().map(|item| bar.after(work(item))).collect();
    MANY.store(false, Ordering::Relaxed);
    bar.ended();
    results
}

/// A bar that is not drawn before a second has passed.
pub struct Late {
    bar: ProgressBar,
    began: Instant,
}

impl Late {
    fn new(length: u64, template: &str) -> Late {
        let bar = ProgressBar::with_draw_target(Some(length), ProgressDrawTarget::hidden());
        bar.set_style(ProgressStyle::with_template(template).expect("a template"));
        Late { bar, began: Instant::now() }
    }

    /// Over a file of so many bytes, where that is known.
    pub fn bytes(length: Option<u64>) -> Late {
        match length {
            Some(length) => Late::new(length, "{bar:40} {bytes} of {total_bytes}, {eta} left"),
            None => Late::new(0, "{bytes} so far"),
        }
    }

    fn after<R>(&self, result: R) -> R {
        self.bar.inc(1);
        self.drawn();
        result
    }

    pub fn reached(&self, position: u64) {
        self.bar.set_position(position);
        if !MANY.load(Ordering::Relaxed) {
            self.drawn();
        }
    }

    pub fn ended(&self) {
        self.bar.finish_and_clear();
    }

    fn drawn(&self) {
        if self.bar.is_hidden() && due(self.began.elapsed()) && std::io::stderr().is_terminal() {
            self.bar.set_draw_target(ProgressDrawTarget::stderr());
        }
    }
}

fn due(elapsed: Duration) -> bool {
    elapsed > QUIET
}

#[cfg(test)]
mod tests {
    use super::*;

    #[test]
    fn the_items_order_is_kept() {
        let items: Vec<u64> = (0..1000).collect();
        assert_eq!(each(&items, |n| n * 2), items.iter().map(|n| n * 2).collect::<Vec<_>>());
    }

    #[test]
    fn no_bar_in_the_first_second() {
        assert!(!due(Duration::from_millis(999)) && due(Duration::from_millis(1001)));
    }
}
