//! Request 14 once more: what the stream takes, what stops an account, and what each account does by itself, a call of `ysh_step` a bar.

use yshturpa::calls;
use yshturpa::layout::GIVEN;

use super::lent::{After, Held, Lent, Rooms};
use crate::model::refusals::{bar, need, word, Checked};
use crate::model::table;
use crate::records::bar_words;

const STREAM_WORDS: usize = 2;
const STATUS_WORDS: usize = 3;
const STREAM_ROOM: u64 = 16;
const STATUS_ROOM: u64 = 17;
const MOST: u64 = 4_294_967_295;
const MOST_SLOTS: u64 = 64;
const LEVERAGE: usize = 15;
/// The words of a bar up to its mask, and those of its funding.
const BEFORE_SLOTS: usize = 7;
const FUNDING: usize = 3;

/// What is judged before any bar.
fn call(lent: &Lent) -> Checked {
    need(lent.stream.content.len() >= STREAM_WORDS, 10, STREAM_ROOM)?;
    let statuses = lent.accounts.iter().map(|account| account.status.content.len());
    need(statuses.min() >= Some(STATUS_WORDS), 10, STATUS_ROOM)
}

/// The records that the bars are cut into, where they are.
fn records(stream: &[u64], bars: &[u64]) -> Result<usize, u64> {
    need(stream[0] <= MOST_SLOTS, 12, 0)?;
    let width = bar_words(stream[0] as usize);
    need(bars.len().is_multiple_of(width) && stream[1] <= MOST, 13, 0)?;
    Ok(width)
}

/// How many bars the stream takes, and what it answers.
fn taken(stream: &[u64], bars: &[u64], width: usize) -> (u64, u64) {
    let slots = stream[0] as usize;
    for (i, new) in bars.chunks(width).enumerate() {
        let seen = stream[1] + i as u64;
        if let Err(refused) = need(seen < MOST, 14, 0).and_then(|()| bar(new, slots, seen)) {
            return (i as u64, refused);
        }
    }
    ((bars.len() / width) as u64, 0)
}

/// A bar of the stream as an account of K slots is handed it.
pub fn own_bar(bar: &[u64], slots: usize) -> Vec<u64> {
    let mut own = bar[..BEFORE_SLOTS + slots].to_vec();
    own[6] &= if slots == 64 { u64::MAX } else { (1 << slots) - 1 };
    own.extend(&bar[bar.len() - FUNDING..]);
    own
}

/// 1 to 9 of the table, then 21.
fn admitted(account: &Rooms, stream_slots: u64) -> Checked {
    let (bytes, settings) = (&account.table.content, &account.settings.content);
    table::checked(bytes)?;
    let short = table::nodes_of_tree(bytes, 2) + table::nodes_of_tree(bytes, 3);
    let leverage = match word(settings, GIVEN) >> LEVERAGE & 1 {
        0 => 1.0,
        _ => f64::from_bits(word(settings, LEVERAGE)),
    };
    let slots = table::slots(bytes).max(word(settings, 0));
    need(short == 0 && leverage <= 1.0 && slots <= stream_slots, 21, 0)
}

/// One bar of an account by itself.
fn step(account: &Rooms, held: &mut Held, bar: &[u64]) -> u64 {
    calls::step(
        &account.settings.content,
        &mut held.state,
        bar,
        &mut held.rows,
        &mut held.equity,
        &mut held.trades,
        [&account.entry.content, &account.exit.content, &[], &[]],
    )
}

/// Who watches an account: its number, the bar's within the call, and what it held after that bar or was refused with.
pub type Seen<'a> = dyn FnMut(usize, usize, Result<&Held, u64>) -> Result<(), String> + 'a;

/// An account by itself over the bars that the stream took.
fn alone(lent: &Lent, number: usize, bars: &[u64], seen: &mut Seen) -> Result<Held, String> {
    let (account, stream) = (&lent.accounts[number], &lent.stream.content);
    let mut held = account.held();
    if bars.is_empty() || held.status[0] != 0 {
        return Ok(held);
    }
    let stop = |held: &mut Held, refused: u64, bar: u64| {
        held.status[..STATUS_WORDS].copy_from_slice(&[refused >> 32, refused & 0xffff_ffff, stream[1] + bar]);
    };
    if let Err(refused) = admitted(account, stream[0]) {
        stop(&mut held, refused, 0);
        seen(number, 0, Err(refused))?;
        return Ok(held);
    }
    let slots = word(&account.settings.content, 0) as usize;
    for (i, bar) in bars.chunks(bar_words(stream[0] as usize)).enumerate() {
        match step(account, &mut held, &own_bar(bar, slots)) {
            0 => seen(number, i, Ok(&held))?,
            refused => {
                stop(&mut held, refused, i as u64);
                seen(number, i, Err(refused))?;
                break;
            }
        }
    }
    Ok(held)
}

/// What the call should come to.
pub fn after(lent: &Lent, seen: &mut Seen) -> Result<After, String> {
    let (stream, bars) = (&lent.stream.content, &lent.bars.content);
    let judged = call(lent).and_then(|()| match bars.is_empty() {
        true => Ok((0, 0, 1)),
        false => records(stream, bars).map(|width| {
            let (done, answer) = taken(stream, bars, width);
            (done, answer, width)
        }),
    });
    let (done, answer, width) = judged.unwrap_or_else(|refused| (0, refused, 1));
    let own = &bars[..done as usize * width];
    let mut accounts = Vec::new();
    for number in 0..lent.accounts.len() {
        accounts.push(alone(lent, number, own, seen)?);
    }
    let mut counted = stream.clone();
    if done > 0 {
        counted[1] += done;
    }
    Ok(After {
        answer,
        done,
        stream: counted,
        accounts: accounts.try_into().expect("four of them"),
    })
}

/// Whether a number is one that stops an account: 11 is the stream's alone.
pub fn stops(refused: u64) -> bool {
    matches!(refused >> 32, 1..=10 | 12..=16 | 21)
}
