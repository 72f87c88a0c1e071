//! The least of many short measurements, the sides of a comparison by turns, in time of this thread on a processor. What other programs take is not
//! counted, and what they do to the caches is not in the least of many.

use std::time::Duration;

/// Blocks of each side that are measured.
pub const REPETITIONS: usize = 60;

#[repr(C)]
struct TimeSpec {
    seconds: i64,
    nanoseconds: i64,
}

extern "C" {
    fn clock_gettime(clock: i32, time: *mut TimeSpec) -> i32;
}

/// Linux's clock of a thread's own processor time.
const THREAD_CLOCK: i32 = 3;

fn processor_time() -> Duration {
    let mut time = TimeSpec {
        seconds: 0,
        nanoseconds: 0,
    };
    let failed = unsafe { clock_gettime(THREAD_CLOCK, &mut time) };
    assert_eq!(failed, 0, "a clock of processor time");
    Duration::new(time.seconds as u64, time.nanoseconds as u32)
}

/// A side of a comparison: a block of work, and how many units of it the block is.
pub struct Side<'a> {
    count: usize,
    block: Box<dyn FnMut() + 'a>,
}

pub fn side<'a>(count: usize, block: impl FnMut() + 'a) -> Side<'a> {
    Side {
        count,
        block: Box::new(block),
    }
}

impl Side<'_> {
    /// Nanoseconds a unit, of one block.
    fn time(&mut self) -> f64 {
        let began = processor_time();
        (self.block)();
        (processor_time() - began).as_nanos() as f64 / self.count as f64
    }
}

/// Nanoseconds a unit of each side: the least of many blocks, the sides by turns.
pub fn by_turns<const N: usize>(mut sides: [Side; N]) -> [f64; N] {
    let mut least = [f64::INFINITY; N];
    for _ in 0..REPETITIONS {
        for (least, side) in least.iter_mut().zip(&mut sides) {
            *least = least.min(side.time());
        }
    }
    least
}

/// The same of one side alone.
pub fn each(count: usize, block: impl FnMut()) -> f64 {
    let [time] = by_turns([side(count, block)]);
    time
}

/// A time as it is written in a table.
pub fn nanoseconds(time: f64) -> String {
    match time {
        t if t < 100.0 => format!("{t:.1}"),
        t => format!("{t:.0}"),
    }
}

pub fn ratio(ours: f64, theirs: f64) -> String {
    format!("{:.2}", ours / theirs)
}
