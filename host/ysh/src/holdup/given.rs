//! What was asked: the plan of programs, the times around it, the supply, and the time that is there.

use super::asked::{Holdup, SupplyAsked};
use super::plan::{Commit, Flash, Plan, SEAL};
use super::supply::Supply;
use super::units::{Share, Time};
use crate::columns::grouped;
use crate::problem::Problem;

/// Where the time that is there is known from.
#[derive(Clone, Copy, Debug, Default, PartialEq)]
pub enum HaveFrom {
    #[default]
    Told,
    /// A capacitor of so many farads.
    Capacitor(f64),
    /// What the clients of before take.
    Before,
}

#[derive(Clone, Debug, PartialEq)]
pub struct Given {
    pub plan: Plan,
    /// What a page takes typically, where the longest time was given too, which decides.
    pub typical: Option<Time>,
    /// Before the first byte.
    pub before: Time,
    /// The longest call, and the program that consumes an image: the longer one has to end first.
    pub call: Time,
    pub call_from: Option<String>,
    pub consume: Time,
    /// Each file a box of its own, with so many dumps one after another.
    pub dumps: Option<u64>,
    /// On the whole time.
    pub margin: Share,
    pub supply: Option<Supply>,
    pub have: Option<Time>,
    pub have_from: HaveFrom,
    pub limits: bool,
}

impl Given {
    pub fn of(asked: &Holdup) -> Result<Given, Problem> {
        let (plan, typical) = plan_of(asked)?;
        let supply = supply_of(&asked.supply)?;
        let (have, have_from) = match (asked.supply.capacitance, &supply) {
            (Some(farads), Some(supply)) => (Some(supply.held_up(farads).whole_micros()), HaveFrom::Capacitor(farads)),
            _ => (asked.wanted.have, HaveFrom::Told),
        };
        if have.is_none() && asked.wanted.limits {
            let text = "the time that is there was expected: --have, or --capacitance";
            return Err(Problem::input("--limits", "", text));
        }
        Ok(Given {
            plan,
            typical,
            before: asked.flash.before,
            call: asked.flash.call,
            call_from: asked.flash.call_from.clone(),
            consume: asked.flash.consume,
            dumps: asked.flash.dumps,
            margin: asked.flash.margin,
            supply,
            have,
            have_from,
            limits: asked.wanted.limits || asked.supply.capacitance.is_some(),
        })
    }

    /// Dumps of a client's size that its box writes, the client being asked about by itself.
    pub fn copies(&self) -> u64 {
        self.dumps.unwrap_or(1)
    }

    /// The plan with the typical time of a page, where the longest decides.
    pub fn typical_plan(&self) -> Option<Plan> {
        match (self.plan.flash, self.typical) {
            (Flash::Pages { size, repeats, .. }, Some(time)) => {
                Some(Plan { flash: Flash::Pages { size, time, repeats }, ..self.plan })
            }
            _ => None,
        }
    }

    /// What has to end before a dump begins.
    pub fn first(&self) -> Time {
        self.call.max(self.consume)
    }

    pub fn first_named(&self) -> &'static str {
        if self.consume > self.call {
            "program that consumes"
        } else {
            "longest call"
        }
    }

    /// How long a box needs power that writes these dumps: what has to end first, the time before the first byte, the writing, and the margin.
    pub fn total(&self, writing: Time) -> Time {
        self.margin.more(self.first() + self.before + writing)
    }

    /// What a time leaves for each dump.
    pub fn share(&self, have: Time) -> Time {
        Time(self.margin.less(have).less(self.first()).less(self.before).0 / u128::from(self.copies()))
    }

    /// The rows of the deepest window of so many slots whose dumps fit in a time.
    pub fn rows_within(&self, have: Time, slots: u64) -> u64 {
        let most = yshturpa::layout::MOST_DEPTH as u64;
        let bytes = self.plan.most(self.share(have));
        let one = yshturpa::dump_bytes(1, slots);
        let row = yshturpa::dump_bytes(2, slots) - one;
        (bytes.saturating_sub(one - row) / row).min(most)
    }
}

fn supply_of(asked: &SupplyAsked) -> Result<Option<Supply>, Problem> {
    let (Some(power), Some(drop), Some(lowest)) = (asked.power, asked.drop_voltage, asked.lowest_voltage) else {
        return Ok(None);
    };
    if drop <= lowest {
        let text = format!("{lowest} V: less than the {drop} V of --drop-voltage was expected");
        return Err(Problem::input("--lowest-voltage", "", text));
    }
    let supply = Supply {
        power,
        efficiency: asked.efficiency,
        drop,
        lowest,
        esr: asked.esr.unwrap_or(0.0),
        tolerance: asked.tolerance,
        age: asked.age,
        temperature: asked.temperature,
    };
    if supply.swing() <= 0.0 {
        let text =
            format!("it loses {:.3} V, which leaves nothing between {drop} V and {lowest} V", supply.lost_volts());
        return Err(Problem::input("--esr", "", text));
    }
    Ok(Some(supply))
}

/// The plan, and the typical time of a page where it is not the one that decides.
fn plan_of(asked: &Holdup) -> Result<(Plan, Option<Time>), Problem> {
    let part = &asked.flash;
    let (flash, typical) = match (part.page, part.page_time, part.page_time_most, part.rate) {
        (Some(size), Some(typical), Some(most), _) if most < typical => {
            let text =
                format!("{most} ms: no less than the {typical} ms of --page-time was expected (page of {size} bytes)");
            return Err(Problem::input("--page-time-most", "", text));
        }
        (Some(size), typical, Some(time), _) => (Flash::Pages { size, time, repeats: part.retries }, typical),
        (Some(size), Some(time), None, _) => (Flash::Pages { size, time, repeats: part.retries }, None),
        (_, _, _, Some(rate)) => (Flash::Rate(rate), None),
        _ => {
            let text = "--page with --page-time, or --rate, was expected";
            return Err(Problem::input("the flash", "", text));
        }
    };
    if part.commit == Commit::Page && part.commit_time.is_some() {
        let text = "with --commit page the last program is a whole page, and none was expected";
        return Err(Problem::input("--commit-time", "", text));
    }
    let unit = part.unit.unwrap_or(SEAL);
    if let Flash::Pages { size, .. } = flash {
        if part.commit == Commit::Seal && size % unit != 0 {
            let text = format!("{} bytes: a page of {} is no whole number of them", grouped(unit), grouped(size));
            return Err(Problem::input("--unit", "", text));
        }
    }
    let plan = Plan { flash, commit: part.commit, commit_time: part.commit_time, unit, erase: part.erase_time };
    Ok((plan, typical))
}

#[cfg(test)]
mod tests {
    use super::*;

    /// A window fits just where it has no more rows than fit.
    #[test]
    fn what_fits_and_how_deep_agree() {
        let flashes = [
            Flash::Pages { size: 256, time: Time(7), repeats: 0 },
            Flash::Pages { size: 4096, time: Time(90), repeats: 2 },
            Flash::Rate(1 << 40),
        ];
        let cases = [(1, 0, 0), (1, 64, 15), (3, 2, 0), (7, 5, 333)];
        for (flash, (dumps, slots, margin)) in flashes.into_iter().flat_map(|f| cases.map(|case| (f, case))) {
            let plan = Plan { flash, commit: Commit::Mark, commit_time: None, unit: SEAL, erase: Time(2) };
            let (before, call, consume, margin) = (Time(3), Time(5), Time(6), Share::of_thousands(margin));
            let (have_from, limits, call_from) = (HaveFrom::Told, false, None);
            let (typical, supply, have, dumps) = (None, None, None, Some(dumps));
            let given = Given {
                plan,
                typical,
                before,
                call,
                call_from,
                consume,
                dumps,
                margin,
                supply,
                have,
                have_from,
                limits,
            };
            for have in (0..4000).step_by(13).map(Time) {
                let most = given.rows_within(have, slots);
                for rows in [1, 2, 3, 10, most.max(1), most + 1] {
                    let writing = plan.write(yshturpa::dump_bytes(rows, slots)).time * given.copies();
                    assert_eq!(given.total(writing) <= have, rows <= most, "{given:?} {have:?} {rows}");
                }
            }
        }
    }
}
