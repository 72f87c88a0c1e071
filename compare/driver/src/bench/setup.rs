//! The tables, settings and bars that are measured.

use oracle::lists::dice::Dice;
use oracle::lists::runs::{plain, settings_for, walk};
use oracle::lists::trees::{close, compare, number, prev, slot};
use oracle::spec::{Condition, Risk};
use oracle::table::Table;
use oracle::Settings;

use crate::case::Case;

/// Bars that are stepped over again and again.
const BARS: u64 = 4_096;

#[derive(Debug, Clone, Copy)]
pub struct Size {
    pub large: bool,
    pub depth: usize,
    pub slots: usize,
}

pub const DEPTHS: [usize; 4] = [3, 14, 200, 4_096];

/// CrossAbove(slot 0, slot 1), and its mirror.
fn cross(kind: u64) -> Condition {
    compare(kind, slot(0), slot(1))
}

/// Lt(close, Prev(close, n)), looking back far enough for D rows.
fn below_before(depth: usize) -> Condition {
    compare(17, close(), prev(close(), depth as u32 - 1))
}

/// The paper's example: 7 nodes.
fn small(slots: usize, depth: usize) -> Table {
    Table {
        slots,
        trees: [Some(cross(22)), Some(below_before(depth)), None, None],
    }
}

/// Trees of some sixty nodes, every one of which is visited: 254 nodes.
fn large(slots: usize, depth: usize) -> Table {
    let above = |i: usize| compare(18, close(), number(-1.0 - i as f64));
    let below = |i: usize| compare(17, close(), number(-1.0 - i as f64));
    let every = |last: Condition| Condition::All((0..20).map(above).chain([last]).collect());
    let any = |count: usize, last: Condition| Condition::Any((0..count).map(below).chain([last]).collect());
    Table {
        slots,
        trees: [
            Some(every(cross(22))),
            Some(any(19, below_before(depth))),
            Some(every(cross(23))),
            Some(any(20, cross(22))),
        ],
    }
}

impl Size {
    pub fn name(&self) -> &'static str {
        if self.large {
            "large"
        } else {
            "small"
        }
    }

    pub fn case(&self) -> Case {
        let table = if self.large {
            large(self.slots, self.depth)
        } else {
            small(self.slots, self.depth)
        };
        let settings = Settings {
            taker_bps: 4.5,
            risk: Risk {
                stop_loss_pct: Some(4.0),
                take_profit_pct: Some(6.0),
                ..Risk::default()
            },
            ..plain()
        };
        let mut bars = walk(&mut Dice::new(1), BARS, self.slots, 8, 0);
        // The walk has no far ends: it would drift over so many bars.
        for bar in &mut bars {
            let around = |x: f64| 100.0 + x % 20.0;
            let c = &mut bar.candle;
            (c.open, c.close) = (around(c.open), around(c.close));
            (c.high, c.low) = (c.open.max(c.close) + 0.5, c.open.min(c.close) - 0.5);
            bar.slots.iter_mut().for_each(|slot| *slot = slot.map(around));
        }
        let case = Case {
            settings: settings_for(settings, &table),
            table,
            bars,
        };
        assert_eq!(case.settings.depth, self.depth);
        case
    }
}
