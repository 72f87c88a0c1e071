//! Request 11 written once more: the bytes of an image, their order of writing, what an image says and which are refused.

use yshturpa::layout::STATE_WORDS;

use super::refusals::{bar, counts_held, need, rooms, settings, word, Checked};

const HEAD: usize = 256;
const AREA: u64 = 14;
const MARK: &[u8] = b"WDP";

/// Which bytes hold which word of the state: the first byte, how many, the word. Equity points and trades are not in it.
const FIELDS: [(usize, usize, usize); 20] = [
    (8, 4, 0),
    (12, 4, 1),
    (16, 1, 4),
    (17, 1, 17),
    (18, 1, 6),
    (20, 4, 7),
    (24, 8, 5),
    (32, 8, 8),
    (40, 8, 9),
    (48, 8, 10),
    (56, 8, 11),
    (64, 8, 12),
    (72, 8, 13),
    (80, 8, 14),
    (88, 8, 15),
    (96, 8, 16),
    (104, 8, 18),
    (112, 8, 19),
    (120, 8, 20),
    (128, 8, 21),
];

/// "256 + D·8·(7 + K) bytes, always".
pub fn size(slots: u64, depth: u64) -> u128 {
    HEAD as u128 + (8 * u128::from(depth)).saturating_mul(7 + u128::from(slots))
}

/// The places of the bytes in the order of writing: "the body goes first, and of the header .. the mark's last byte is written last".
pub fn order(size: usize) -> impl Iterator<Item = usize> {
    (HEAD..size).chain(MARK.len()..HEAD).chain(0..MARK.len())
}

/// The rows that go into an image: the last D of those held.
pub fn window<'a>(settings: &[u64], state: &[u64], rows: &'a [u64]) -> &'a [u64] {
    let width = 7 + settings[0] as usize;
    let held = state[1] as usize;
    let first = held.saturating_sub(settings[1] as usize);
    &rows[first * width..held * width]
}

/// The whole image of a state and its rows.
pub fn image(settings: &[u64], state: &[u64], rows: &[u64]) -> Vec<u8> {
    let window = window(settings, state, rows);
    let mut image = vec![0; size(settings[0], settings[1]) as usize];
    image[..3].copy_from_slice(MARK);
    image[3] = settings[0] as u8;
    image[4] = 1;
    image[6..8].copy_from_slice(&(settings[1] as u16).to_le_bytes());
    for (first, bytes, at) in FIELDS {
        let number = if at == 1 { state[1].min(settings[1]) } else { state[at] };
        image[first..first + bytes].copy_from_slice(&number.to_le_bytes()[..bytes]);
    }
    for (place, number) in image[HEAD..].chunks_exact_mut(8).zip(window) {
        place.copy_from_slice(&number.to_le_bytes());
    }
    image
}

fn number(image: &[u8], first: usize, bytes: usize) -> u64 {
    let digits = image[first..first + bytes].iter().rev();
    digits.fold(0, |n, &byte| n << 8 | u64::from(byte))
}

/// The state that an accepted image says: "empty trade and equity rooms counted from 0".
pub fn state(image: &[u8]) -> [u64; STATE_WORDS] {
    let mut state = [0; STATE_WORDS];
    for (first, bytes, at) in FIELDS {
        state[at] = number(image, first, bytes);
    }
    state
}

/// The rows that an accepted image says, word by word.
pub fn rows(image: &[u8]) -> Vec<u64> {
    let words = state(image)[1] as usize * (7 + usize::from(image[3]));
    let bytes = image[HEAD..].chunks_exact(8).take(words);
    bytes.map(|word| number(word, 0, 8)).collect()
}

/// "another mark or version, D outside 1 to 4,096, K above 64, a size not theirs".
fn shape(image: &[u8]) -> bool {
    image.len() >= HEAD
        && &image[..3] == MARK
        && number(image, 4, 2) == 1
        && (1..=4_096).contains(&number(image, 6, 2))
        && image[3] <= 64
        && image.len() as u128 == size(image[3].into(), number(image, 6, 2))
}

/// "more rows than D or bars seen, an entry bar not below bars seen, .. an unknown kind".
fn numbers(image: &[u8]) -> bool {
    let (seen, rows) = (number(image, 8, 4), number(image, 12, 4));
    let (order, kind, entered) = (image[16], image[17], image[18]);
    let entry_bar = number(image, 20, 4);
    rows <= number(image, 6, 2)
        && rows <= seen
        && order <= 3
        && kind <= 3
        && entered <= 1
        && (entered == 0 || entry_bar < seen)
}

/// "a nonzero spare byte", in the header: where nothing is kept, and in fields that their kind does not use.
fn spare(image: &[u8]) -> bool {
    let zero = |first: usize, bytes: usize| number(image, first, bytes) == 0;
    let (order, kind) = (image[16], image[17]);
    let no_entry = order == 0 || order == 3;
    image[19] == 0
        && image[136..HEAD].iter().all(|&byte| byte == 0)
        && (order != 0 || zero(24, 8))
        && (!no_entry || kind == 0)
        && (kind != 0 || zero(104, 8))
        && (kind == 3 || zero(112, 8))
        && (image[18] != 0 || zero(20, 4))
}

/// "a row 11 would refuse", and the words of its absent slots.
fn row(words: &[u64]) -> bool {
    let slots = words.len() - 7;
    let whole = [words, &[0, 0, 0]].concat();
    let absent = |k: &usize| words[6] >> k & 1 == 0;
    bar(&whole, slots, 0).is_ok() && (0..slots).filter(absent).all(|k| words[7 + k] == 0)
}

fn body(image: &[u8]) -> bool {
    let rows = rows(image);
    rows.chunks(7 + usize::from(image[3])).all(row) && image[HEAD + 8 * rows.len()..].iter().all(|&byte| byte == 0)
}

/// A dump: 10 (the rooms, then the area), 12, 13.
pub fn dump(with: &[u64], state: &[u64], held: &[u64], area: usize) -> Checked {
    rooms(with, state, held)?;
    need(size(word(with, 0), word(with, 1)) <= area as u128, 10, AREA)?;
    settings(with)?;
    counts_held(state, with[0], held)
}

/// A part: the same, and no area.
pub fn part(with: &[u64], state: &[u64], held: &[u64]) -> Checked {
    rooms(with, state, held)?;
    settings(with)?;
    counts_held(state, with[0], held)
}

/// A restore: 10, 12, then 19, then "20 if its D or K is not that of the table and settings".
pub fn restore(with: &[u64], state: &[u64], image: &[u8], held: &[u64]) -> Checked {
    rooms(with, state, held)?;
    settings(with)?;
    need(shape(image) && numbers(image) && spare(image) && body(image), 19, 0)?;
    need(number(image, 6, 2) == with[1] && u64::from(image[3]) == with[0], 20, 0)
}
