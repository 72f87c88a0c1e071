//! Making a case that parts the two sides small: bars first, then the trees, then the settings.

use oracle::lists::runs::{plain, settings_for};
use oracle::lists::trees::{always, never};
use oracle::spec::Condition;
use oracle::Settings;

use super::{compare_case, Mismatch, Plan};
use crate::case::Case;

/// The smallest case found that still parts the two sides against the same, and how it parts them.
pub fn shrink(case: &Case, plan: Plan, mismatch: Mismatch) -> (Case, Mismatch) {
    let plan = Plan { ask_every: 1, ..plan };
    let mut smallest = Smallest {
        case: case.clone(),
        mismatch,
        plan,
    };
    loop {
        let before = smallest.case.lines();
        smallest.fewer_bars();
        smallest.simpler_trees();
        smallest.simpler_settings();
        smallest.simpler_bars();
        if smallest.case.lines() == before {
            return (smallest.case, smallest.mismatch);
        }
    }
}

struct Smallest {
    case: Case,
    mismatch: Mismatch,
    plan: Plan,
}

impl Smallest {
    /// Takes the case over where it still parts the two.
    fn offer(&mut self, case: Case) -> bool {
        let still = compare_case(&case, self.plan).err();
        let Some(mismatch) = still.filter(|m| m.against == self.mismatch.against) else {
            return false;
        };
        self.case = case;
        self.mismatch = mismatch;
        true
    }

    fn fewer_bars(&mut self) {
        if let Some(bar) = self.mismatch.bar {
            let bars = self.case.bars[..=bar].to_vec();
            self.offer(Case {
                bars,
                ..self.case.clone()
            });
        }
        let mut chunk = self.case.bars.len().max(1);
        while chunk > 0 {
            let mut at = 0;
            while at < self.case.bars.len() {
                let mut bars = self.case.bars.clone();
                bars.drain(at..(at + chunk).min(bars.len()));
                if !self.offer(Case {
                    bars,
                    ..self.case.clone()
                }) {
                    at += chunk;
                }
            }
            chunk /= 2;
        }
    }

    fn simpler_trees(&mut self) {
        for tree in 0..4 {
            while self.simpler_tree(tree) {}
        }
    }

    fn simpler_tree(&mut self, tree: usize) -> bool {
        let Some(condition) = self.case.table.trees[tree].clone() else {
            return false;
        };
        let mut offers: Vec<Option<Condition>> = Vec::new();
        if tree >= 2 {
            offers.push(None);
        }
        let constant = |c: &Condition| matches!(c, Condition::All(cs) | Condition::Any(cs) if cs.is_empty());
        if !constant(&condition) {
            offers.extend([Some(never()), Some(always())]);
        }
        offers.extend(parts(&condition).into_iter().map(Some));
        offers.into_iter().any(|offer| {
            let mut case = self.case.clone();
            case.table.trees[tree] = offer;
            case.settings = settings_for(case.settings, &case.table);
            self.offer(case)
        })
    }

    fn simpler_settings(&mut self) {
        let plain = settings_for(plain(), &self.case.table);
        for simpler in SIMPLER {
            let mut case = self.case.clone();
            simpler(&mut case.settings, &plain);
            case.settings = settings_for(case.settings, &case.table);
            if case.lines() != self.case.lines() {
                self.offer(case);
            }
        }
    }

    fn simpler_bars(&mut self) {
        for i in 0..self.case.bars.len() {
            let mut case = self.case.clone();
            let bar = &mut case.bars[i];
            bar.funding = None;
            bar.slots.iter_mut().for_each(|slot| *slot = None);
            self.offer_other(case);
            let mut case = self.case.clone();
            let bar = &mut case.bars[i].candle;
            (bar.high, bar.low, bar.volume) = (bar.open.max(bar.close), bar.open.min(bar.close), 1_000.0);
            self.offer_other(case);
            let mut case = self.case.clone();
            let bar = &mut case.bars[i].candle;
            (bar.time, bar.open) = (60 * i as i64, bar.close);
            self.offer_other(case);
        }
    }

    fn offer_other(&mut self, case: Case) {
        if case.lines() != self.case.lines() {
            self.offer(case);
        }
    }
}

/// The conditions just below a condition, and the condition with one of them left out.
fn parts(condition: &Condition) -> Vec<Condition> {
    let without = |list: &[Condition], i: usize| [&list[..i], &list[i + 1..]].concat();
    match condition {
        Condition::Not(inner) => vec![(**inner).clone()],
        Condition::All(list) => {
            let shorter = (0..list.len()).map(|i| Condition::All(without(list, i)));
            list.iter().cloned().chain(shorter).collect()
        }
        Condition::Any(list) => {
            let shorter = (0..list.len()).map(|i| Condition::Any(without(list, i)));
            list.iter().cloned().chain(shorter).collect()
        }
        _ => Vec::new(),
    }
}

type Simpler = fn(&mut Settings, &Settings);

/// Each setting, put back to the plain one.
const SIMPLER: [Simpler; 20] = [
    |s, plain| s.warmup = plain.warmup,
    |s, plain| s.delay = plain.delay,
    |s, plain| s.taker_bps = plain.taker_bps,
    |s, plain| s.slippage = plain.slippage,
    |s, plain| s.funding = plain.funding,
    |s, _| s.risk.trailing_stop_pct = None,
    |s, _| s.risk.take_profit_pct = None,
    |s, _| s.risk.max_leverage = None,
    |s, _| s.risk.max_position_pct = None,
    |s, _| s.risk.liquidation = false,
    |s, plain| s.partial_fills = plain.partial_fills,
    |s, plain| s.participation = plain.participation,
    |s, plain| s.lot = plain.lot,
    |s, plain| s.sizing = plain.sizing,
    |s, plain| s.order_type = plain.order_type,
    |s, plain| s.level_pct = plain.level_pct,
    |s, plain| s.limit_pct = plain.limit_pct,
    |s, plain| s.maker_bps = plain.maker_bps,
    |s, plain| s.capital = plain.capital,
    |s, _| {
        if !matches!(s.sizing, oracle::spec::Sizing::RiskPerTrade { .. }) {
            s.risk.stop_loss_pct = None;
        }
    },
];
