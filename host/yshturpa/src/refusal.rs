//! Why a call did nothing: number and place, and what they mean in words.

use std::fmt;

use crate::layout::{room, setting};
use crate::Tree;

/// The papers' number of a refusal, and the place that goes with it.
///
/// `{}` prints number, place and meaning in a line; `{:#}` adds what commonly causes it.
#[derive(Clone, Copy, Debug, PartialEq, Eq, Hash)]
pub struct Refusal {
    pub number: u32,
    pub place: u32,
}

impl Refusal {
    /// The word that a call answers, taken apart.
    pub fn of(word: u64) -> Result<(), Refusal> {
        match word {
            0 => Ok(()),
            _ => Err(Refusal { number: (word >> 32) as u32, place: word as u32 }),
        }
    }

    /// What the number says.
    pub fn meaning(&self) -> &'static str {
        self.entry().map_or("a number that this wrapper does not know", |(_, meaning, _)| meaning)
    }

    /// What commonly causes it.
    pub fn causes(&self) -> &'static str {
        if self.number == 12 {
            return setting_causes(self.place);
        }
        self.entry().map_or("a library that is newer than this wrapper", |(_, _, causes)| causes)
    }

    /// What the place names, where it names anything: a node, a room, a setting, a bar or a step.
    pub fn place_in_words(&self) -> Option<String> {
        let place = self.place;
        match self.number {
            6..=8 => Some(format!("node {place}")),
            9 => Some(format!("the tree whose root is node {place}")),
            10 => Some(match room::NAMES.iter().find(|(number, _)| *number == place) {
                Some((_, name)) => format!("the room for {name}"),
                None => format!("room {place}"),
            }),
            11 | 16 => Some(format!("bar {place}")),
            17 => Some(format!("trade {place}")),
            12 => Some(match setting::NAMES.get(place as usize) {
                Some(name) => format!("setting {place}, {name}"),
                None => format!("setting {place}"),
            }),
            15 => {
                let list = Tree::ALL.get(place as usize / 1024).map_or("a tree that is not there", |tree| tree.name());
                Some(format!("step {} of the {list}", place % 1024))
            }
            _ => None,
        }
    }

    fn entry(&self) -> Option<(u32, &'static str, &'static str)> {
        WORDS.into_iter().find(|(number, ..)| *number == self.number)
    }
}

impl fmt::Display for Refusal {
    fn fmt(&self, f: &mut fmt::Formatter) -> fmt::Result {
        write!(f, "refused {} at {}", self.number, self.place)?;
        if let Some(place) = self.place_in_words() {
            write!(f, " ({place})")?;
        }
        write!(f, ": {}", self.meaning())?;
        if f.alternate() {
            write!(f, "; commonly: {}", self.causes())?;
        }
        Ok(())
    }
}

impl std::error::Error for Refusal {}

/// Number, what it says, and what commonly causes it, as the header has them.
const WORDS: [(u32, &str, &str); 22] = [
    (1, "the table is under 16 bytes", "an empty file, or a length that is not the table's"),
    (2, "the first three bytes are not RTB", "it is no rule table"),
    (3, "the table's version is none that is read", "a later format, or written with the high byte first"),
    (
        4,
        "slots, nodes or tree counts are against the rules",
        "more than 64 slots; not 2 to 256 nodes; no entry or no exit; four counts that do not sum to the nodes; a count \
         written with the high byte first",
    ),
    (5, "the table is not 16 bytes and 16 a node long", "cut short, or something follows it, a newline perhaps"),
    (
        6,
        "a node's own bytes are wrong",
        "a kind that does not exist, a selector out of range, a slot at or above K, a constant that is not finite, a field \
         that the kind does not use and that is not 0",
    ),
    (
        7,
        "a tree's sorts or extent are wrong",
        "an operand where a condition belongs, or the other way round; nodes not in prefix order; a tree that wants more or \
         fewer nodes than its count",
    ),
    (8, "nested deeper than 32 levels", "the root is level 1, and operands count too"),
    (9, "a rule looks back more than 4,095 bars", "its Prevs are added up, and so is a cross's 1 or Rising's n"),
    (
        10,
        "a room is too small",
        "rows laid out for another D or K than the settings say; room for steps sized by steps and not by nodes; settings of \
         an older header, with fewer words, or a state of one",
    ),
    (
        11,
        "something in the bar is not finite, or a slot at or above K is marked as present",
        "an indicator that has no value yet was handed over as a NaN in place of absent",
    ),
    (12, "a setting is wrong", "a number that is not finite"),
    (
        13,
        "counts, lists and the entry bar do not fit together",
        "a bar with more or fewer slots than K; rows or records that are not whole; a smaller room than the call before \
         had; a state that was not begun as fresh",
    ),
    (14, "no free place, or no bar more can be counted", "the equity room or the trade room is full"),
    (
        15,
        "a list of steps is not well formed",
        "translated from a table with more slots than K or that looks further back than D allows; the whole room was handed \
         over and not the part that is used",
    ),
    (
        16,
        "an entry is due, and its quantity is 2^53 lots or more",
        "a lot in other units than the quantity, or far too small a one; the same order is due again at the next step, and \
         another lot, sizing or cap, or another price, lets the run go on",
    ),
    (
        17,
        "a trade's pnl is not finite, or its reason is not 1 to 6",
        "a trade room was handed over with its free places, and not the trades of a run alone",
    ),
    (
        18,
        "the stretch begins after it ends, or one of its bars is not held",
        "the last bar was taken for one past the end; no bar was appended yet",
    ),
    (
        19,
        "the image is no whole dump",
        "the supply was lost before its last byte was written; a file of another length; an image of another version",
    ),
    (20, "the image has another D or K than table and settings", "an image of another strategy, or of other settings"),
    (
        21,
        "the account is outside the profile",
        "a table with a short tree; a leverage above 1; more slots, in the table or in setting 0, than the stream has",
    ),
    (22, "the totals would be of more than 4,294,967,295 trades", "totals that are never begun anew"),
];

fn setting_causes(place: u32) -> &'static str {
    match place as usize {
        setting::SLOTS => "more than 64 slots",
        setting::DEPTH => "D is 0, above 4,096, or not above the lookback of a volatility target",
        setting::SIZING_KIND | setting::SLIPPAGE_KIND => "a kind that does not exist",
        setting::ENTRY_KIND => "a kind that does not exist; a word that was spare in an older header and was not cleared",
        setting::LEVEL_PCT | setting::LIMIT_PCT => {
            "a percentage that is not finite, even where the order kind does not use it; a word that was spare in an older \
             header and was not cleared"
        }
        setting::MAKER_BPS => "a number that is not finite; a word that was spare in an older header and was not cleared",
        setting::LOT => {
            "a lot that is negative or not finite; a word that was spare in an older header and was not cleared"
        }
        setting::LOOKBACK => "a lookback above 4,095",
        setting::STOP_LOSS => "risk sizing without a stop loss, or one that is not finite",
        _ => "a number that is not finite",
    }
}

#[cfg(test)]
mod tests {
    use super::*;

    #[test]
    fn a_refusal_says_its_number_its_place_and_what_they_mean() {
        let said = |number, place| Refusal { number, place }.to_string();
        assert_eq!(said(6, 2), "refused 6 at 2 (node 2): a node's own bytes are wrong");
        assert_eq!(said(12, 1), "refused 12 at 1 (setting 1, depth (D)): a setting is wrong");
        assert_eq!(said(12, 24), "refused 12 at 24 (setting 24, lot): a setting is wrong");
        assert_eq!(said(16, 5), "refused 16 at 5 (bar 5): an entry is due, and its quantity is 2^53 lots or more");
        assert_eq!(said(10, 0), "refused 10 at 0 (the room for rows): a room is too small");
        assert_eq!(said(15, 1027), "refused 15 at 1027 (step 3 of the exit): a list of steps is not well formed");
        assert!(format!("{:#}", Refusal { number: 12, place: 1 })
            .ends_with("not above the lookback of a volatility target"));
        for place in 20..=24 {
            assert!(Refusal { number: 12, place }.causes().ends_with("header and was not cleared"), "{place}");
        }
    }

    #[test]
    fn every_number_has_words() {
        for number in (1..=16).chain(18..=21) {
            let refusal = Refusal { number, place: 0 };
            assert!(refusal.entry().is_some() && !refusal.causes().is_empty());
        }
        assert_eq!(Refusal { number: 99, place: 0 }.meaning(), "a number that this wrapper does not know");
    }
}
