//! Damage: words and bytes at the edges of what they may be, and lengths that do not fit.

use oracle::lists::dice::Dice;

use super::room::{Element, Room};

/// Words that some rule asks about, as counts or as floats.
const WORDS: [u64; 30] = [
    0,
    1,
    2,
    3,
    4,
    5,
    6,
    7,
    16,
    63,
    64,
    65,
    1_024,
    4_095,
    4_096,
    4_097,
    4_294_967_294,
    4_294_967_295,
    4_294_967_296,
    1 << 63,
    u64::MAX,
    u64::MAX - 1,
    0x7ff0_0000_0000_0000,
    0xfff0_0000_0000_0000,
    0x7ff8_0000_0000_0000,
    0xfff4_dead_beef_f00d,
    0x3ff0_0000_0000_0000,
    0xbff0_0000_0000_0000,
    0x7fef_ffff_ffff_ffff,
    0x3cb0_0000_0000_0000,
];

const BYTES: [u8; 24] = [
    0, 1, 2, 3, 4, 5, 8, 9, 15, 16, 21, 22, 24, 25, 27, 28, 29, 30, 31, 32, 33, 64, 65, 255,
];

pub fn word(dice: &mut Dice) -> u64 {
    if dice.percent(80) {
        dice.pick(&WORDS)
    } else {
        dice.bits()
    }
}

/// One element is another.
pub trait Damaged: Element {
    fn other(self, dice: &mut Dice) -> Self;
}

impl Damaged for u64 {
    fn other(self, dice: &mut Dice) -> Self {
        match dice.below(8) {
            0 => self.wrapping_add(1),
            1 => self.wrapping_sub(1),
            2 => self ^ 1 << dice.below(64),
            _ => word(dice),
        }
    }
}

impl Damaged for u8 {
    fn other(self, dice: &mut Dice) -> Self {
        match dice.below(8) {
            0 => self.wrapping_add(1),
            1 => self.wrapping_sub(1),
            2 => self ^ 1 << dice.below(8),
            3 => dice.bits() as u8,
            _ => dice.pick(&BYTES),
        }
    }
}

/// Changes an element of the room.
pub fn content<T: Damaged>(dice: &mut Dice, room: &mut Room<T>) {
    if room.content.is_empty() {
        return;
    }
    let at = dice.below(room.content.len() as u64) as usize;
    room.content[at] = room.content[at].other(dice);
}

/// Makes the room shorter or longer: by one, by a record, or altogether.
pub fn length<T: Damaged>(dice: &mut Dice, room: &mut Room<T>) {
    let len = room.content.len();
    let new = match dice.below(8) {
        0..=2 => len.saturating_sub(1),
        3 => len + 1,
        4 => len.saturating_sub(dice.between(2, 17) as usize),
        5 => len + dice.between(2, 17) as usize,
        6 => 0,
        _ => dice.below(len as u64 + 2) as usize,
    };
    room.content.resize(new, T::GUARD);
}
