//! `ysh why` beside the run: what it says was asked, and answered, at a bar is what the original ordered there.

use std::fmt;

use oracle::lists::dice::Dice;

use crate::files::Written;
use crate::ours::ysh;
use crate::theirs::Run;

#[derive(Default)]
pub struct Counts {
    bars: u64,
    yes: u64,
    nothing: u64,
}

impl fmt::Display for Counts {
    fn fmt(&self, f: &mut fmt::Formatter) -> fmt::Result {
        let Counts { bars, yes, nothing } = self;
        write!(
            f,
            "`ysh why` agrees at {bars} bars: {yes} times a rule said yes, {nothing} times nothing was asked"
        )
    }
}

/// Some bars of a run: the order that works after each is the one that follows from what `ysh why` says.
pub fn agrees(written: &Written, theirs: &Run, dice: &mut Dice, counts: &mut Counts) -> Result<(), String> {
    if theirs.orders.is_empty() {
        return Ok(());
    }
    for _ in 0..3 {
        let bar = dice.below(theirs.orders.len() as u64);
        let at = format!("bar:{bar}");
        let (status, out, said) = ysh(&[
            "why",
            &written.table,
            &written.bars,
            "--at",
            &at,
            "--on-refusal",
            "skip",
        ]);
        let order = theirs.orders[bar as usize];
        let follows = match out.lines().find_map(|line| line.strip_prefix("asked     ")) {
            None => return Err(format!("why at bar {bar}: status {status}: {said}")),
            Some(asked) if asked.starts_with("nothing: the first ") => order.is_none(),
            Some(asked) if asked.starts_with("nothing: ") => order.is_some(),
            Some(_) => order == ordered(&out),
        };
        counts.bars += 1;
        counts.nothing += u64::from(out.contains("\nasked     nothing"));
        counts.yes += u64::from(out.contains(" says yes\n"));
        if status != 0 || !follows {
            return Err(format!("why at bar {bar}: {out}but the order is {order:?}"));
        }
    }
    Ok(())
}

/// The order of the first rule that said yes.
fn ordered(out: &str) -> Option<u64> {
    out.lines().find_map(|line| match line {
        "entry says yes" => Some(1),
        "short entry says yes" => Some(2),
        "exit says yes" | "short exit says yes" => Some(3),
        _ => None,
    })
}
