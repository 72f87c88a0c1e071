//! One text on both sides: read, compiled, asked over rows, and shown again.

use dice::Dice;
use std::collections::BTreeMap;
use std::fmt;

use yshturpa::Tree;

use crate::answers::same_answers;
use crate::limits::{lacking, Size};
use crate::settings::same_settings;
use crate::spec::StrategySpec;
use ysh::compile::{self, Choices, Rules, Stopped};
use ysh::strategy::Strategy;

/// What was compared.
#[derive(Default)]
pub struct Counts {
    texts: u64,
    read: u64,
    tables: u64,
    lacking: u64,
    refused: BTreeMap<u32, u64>,
    pub answers: u64,
    pub yes: u64,
}

impl fmt::Display for Counts {
    fn fmt(&self, f: &mut fmt::Formatter) -> fmt::Result {
        let refused: Vec<String> = self
            .refused
            .iter()
            .map(|(number, count)| format!("{count} by {number}"))
            .collect();
        write!(
            f,
            "all agree: {} texts, {} read and {} refused by both; {} tables, {} with no counterpart, refused {}; {} answers, {} yes",
            self.texts,
            self.read,
            self.texts - self.read,
            self.tables,
            self.lacking,
            refused.join(", "),
            self.answers,
            self.yes
        )
    }
}

pub fn compare(text: &str, dice: &mut Dice, counts: &mut Counts) -> Result<(), String> {
    counts.texts += 1;
    let (theirs, ours) = match (StrategySpec::parse(text), ysh::strategy::read(text)) {
        (Ok(theirs), Ok(ours)) => (theirs, ours.strategy),
        (Err(_), Err(_)) => return Ok(()),
        (Ok(_), Err(fault)) => return Err(format!("only ysh refuses it: {fault:?}")),
        (Err(error), Ok(_)) => return Err(format!("only the original refuses it: {error:?}")),
    };
    counts.read += 1;
    let text = |written: serde_json::Result<String>| written.map_err(|error| error.to_string());
    let (a, b) = (
        text(serde_json::to_string(&theirs))?,
        text(serde_json::to_string(&ours))?,
    );
    match a == b {
        true => compiled(&theirs, &ours, dice, counts),
        false => Err(format!("read as\n{a}\nand as\n{b}")),
    }
}

fn compiled(theirs: &StrategySpec, ours: &Strategy, dice: &mut Dice, counts: &mut Counts) -> Result<(), String> {
    let size = Size::of(theirs);
    match (
        compile::rules(ours, Choices::default()),
        lacking(theirs),
        size.refusal(),
    ) {
        (Ok(rules), false, 0) => {
            counts.tables += 1;
            same_slots(&size, &rules)?;
            same_settings(theirs, ours, &rules, &size)?;
            same_again(ours, &rules)?;
            same_answers(theirs, &rules, dice, counts)
        }
        (Err(Stopped::Fault(_)), true, _) => {
            counts.lacking += 1;
            Ok(())
        }
        (Err(Stopped::Refused(_, refusal)), false, number) if refusal.number == number => {
            *counts.refused.entry(number).or_default() += 1;
            Ok(())
        }
        (found, lacking, number) => Err(format!(
            "compiled to {found:?}; no counterpart {lacking}, refusal {number} expected"
        )),
    }
}

fn same_slots(size: &Size, rules: &Rules) -> Result<(), String> {
    match size.names.iter().eq(&rules.names) {
        true => Ok(()),
        false => Err(format!("slots {:?}, names that are read {:?}", rules.names, size.names)),
    }
}

/// Shown as a strategy the table has the document's rules again, name for name.
fn same_again(ours: &Strategy, rules: &Rules) -> Result<(), String> {
    let forest = ysh::table::Forest::of(&rules.table).map_err(|refusal| refusal.to_string())?;
    let short_exit = match (&ours.short_entry, &ours.short_exit) {
        (Some(_), None) => Some(&ours.exit),
        (_, exit) => exit.as_ref(),
    };
    let wanted = [
        Some(&ours.entry),
        Some(&ours.exit),
        ours.short_entry.as_ref(),
        short_exit,
    ];
    for (tree, wanted) in Tree::ALL.into_iter().zip(wanted) {
        let shown = ysh::decompile::condition(&forest, tree, &rules.names);
        if shown.as_ref() != wanted {
            return Err(format!("{} is shown as {shown:?}", tree.name()));
        }
    }
    Ok(())
}
