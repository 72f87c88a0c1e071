//! The calls of include/yshturpa.h, each declared once, over what it is handed and lent: all the `unsafe` there is.
//!
//! Every call but `root`, `version` and `dump_bytes` answers a word that [`Refusal::of`](crate::Refusal::of) takes apart: 0 where it did its work,
//! else a refusal's number times 2^32 plus its place. The rest of this crate stands on these. They are open to whoever lends rooms of their own, of any
//! length and with anything in them, as the comparison with the original does, and, by `by`, to whoever has the functions of another library.
#![allow(unsafe_code)]

use crate::layout::POSITION_WORDS;

/// What an account of four is handed, and what it is lent to write to.
pub struct Account<'a> {
    pub table: &'a [u8],
    pub settings: &'a [u64],
    pub entry: &'a [u8],
    pub exit: &'a [u8],
    pub state: &'a mut [u64],
    pub rows: &'a mut [u64],
    pub equity: &'a mut [u64],
    pub trades: &'a mut [u64],
    pub status: &'a mut [u64],
}

/// The four words of a position: quantity, whether there is an entry bar, its number, bars seen.
pub type PositionWords = [u64; POSITION_WORDS];

/// With the feature `watched`, what makes every call: its name, the function, and its words. compare/stack lays them on a stack of its own.
#[cfg(feature = "watched")]
pub static WATCHED: std::sync::OnceLock<unsafe fn(&'static str, *const (), &[u64]) -> u64> = std::sync::OnceLock::new();

#[cfg(not(feature = "watched"))]
macro_rules! made {
    ($function:ident $($word:expr)*) => { $function($($word),*) };
}

#[cfg(feature = "watched")]
macro_rules! made {
    ($function:ident $($word:expr)*) => {
        WATCHED.get().expect("whoever watches")(stringify!($function), $function as *const (), &[$($word as u64),*])
    };
}

/// A call, from its parameters as Rust has them: a slice is a pointer and a length in C, a word that is lent a pointer, a position four words.
/// `parameters` are taken one by one, into what they are in Rust, in C, and what C is handed.
///
/// SAFETY, of every call: each pointer and the length behind it are one slice's, what is lent for writing is a slice or a word that is the caller's alone,
/// and there is no length that a call does not judge. Of what else the header asks for: floats are rounded to nearest and kept below the normal ones, as
/// every Rust program begins with them and as nothing here changes; and the stack that a call takes (docs/PERFORMANCE.md, "Footprint") is the caller's
/// to have, as for any function: a thread of Rust has two megabytes, many times that.
macro_rules! call {
    ($call:tt ($name:ident: &[$of:ty], $($rest:tt)*) ($($rust:tt)*) ($($c:tt)*) ($($word:tt)*)) => {
        call! { $call ($($rest)*) ($($rust)* $name: &[$of],) ($($c)* _: *const $of, _: usize,)
            ($($word)* { $name.as_ptr() } { $name.len() }) }
    };
    ($call:tt ($name:ident: &mut [$of:ty], $($rest:tt)*) ($($rust:tt)*) ($($c:tt)*) ($($word:tt)*)) => {
        call! { $call ($($rest)*) ($($rust)* $name: &mut [$of],) ($($c)* _: *mut $of, _: usize,)
            ($($word)* { $name.as_mut_ptr() } { $name.len() }) }
    };
    ($call:tt ($name:ident: &mut u64, $($rest:tt)*) ($($rust:tt)*) ($($c:tt)*) ($($word:tt)*)) => {
        call! { $call ($($rest)*) ($($rust)* $name: &mut u64,) ($($c)* _: *mut u64,) ($($word)* { $name as *mut u64 }) }
    };
    ($call:tt ($name:ident: u64, $($rest:tt)*) ($($rust:tt)*) ($($c:tt)*) ($($word:tt)*)) => {
        call! { $call ($($rest)*) ($($rust)* $name: u64,) ($($c)* _: u64,) ($($word)* { $name }) }
    };
    ($call:tt ($name:ident: PositionWords, $($rest:tt)*) ($($rust:tt)*) ($($c:tt)*) ($($word:tt)*)) => {
        call! { $call ($($rest)*) ($($rust)* $name: $crate::calls::PositionWords,) ($($c)* _: u64, _: u64, _: u64, _: u64,)
            ($($word)* { $name[0] } { $name[1] } { $name[2] } { $name[3] }) }
    };
    // the steps of the four trees
    ($call:tt ($name:ident: [&[u8]; 4], $($rest:tt)*) ($($rust:tt)*) ($($c:tt)*) ($($word:tt)*)) => {
        call! { $call ($($rest)*) ($($rust)* $name: [&[u8]; 4],)
            ($($c)* _: *const u8, _: usize, _: *const u8, _: usize, _: *const u8, _: usize, _: *const u8, _: usize,)
            ($($word)* { $name[0].as_ptr() } { $name[0].len() } { $name[1].as_ptr() } { $name[1].len() }
                { $name[2].as_ptr() } { $name[2].len() } { $name[3].as_ptr() } { $name[3].len() }) }
    };
    ($call:tt ($name:ident: Account, $($rest:tt)*) ($($rust:tt)*) ($($c:tt)*) ($($word:tt)*)) => {
        call! { $call ($($rest)*) ($($rust)* $name: $crate::calls::Account,)
            ($($c)* _: *const u8, _: usize, _: *const u64, _: usize, _: *const u8, _: usize, _: *const u8, _: usize,
                _: *mut u64, _: usize, _: *mut u64, _: usize, _: *mut u64, _: usize, _: *mut u64, _: usize, _: *mut u64, _: usize,)
            ($($word)* { $name.table.as_ptr() } { $name.table.len() } { $name.settings.as_ptr() } { $name.settings.len() }
                { $name.entry.as_ptr() } { $name.entry.len() } { $name.exit.as_ptr() } { $name.exit.len() }
                { $name.state.as_mut_ptr() } { $name.state.len() } { $name.rows.as_mut_ptr() } { $name.rows.len() }
                { $name.equity.as_mut_ptr() } { $name.equity.len() } { $name.trades.as_mut_ptr() } { $name.trades.len() }
                { $name.status.as_mut_ptr() } { $name.status.len() }) }
    };
    // all parameters are taken
    (($(#[$about:meta])* $name:ident $function:ident) () ($($rust:tt)*) ($($c:tt)*) ($({ $word:expr })*)) => {
        $(#[$about])*
        #[inline]
        #[allow(clippy::too_many_arguments)]
        pub fn $name($($rust)*) -> u64 {
            extern "C" {
                fn $function($($c)*) -> u64;
            }
            unsafe { made!($function $($word)*) }
        }

        #[doc = concat!("`", stringify!($function), "` of another library.")]
        pub mod $name {
            /// As C has it.
            pub type Function = unsafe extern "C" fn($($c)*) -> u64;

            /// # Safety
            /// The function is the one of include/yshturpa.h that has this name.
            #[allow(clippy::too_many_arguments)]
            pub unsafe fn by(function: Function, $($rust)*) -> u64 {
                function($($word),*)
            }
        }
    };
}

macro_rules! calls {
    ($($(#[$about:meta])* $name:ident = $function:ident($($parameters:tt)*);)*) => {
        $(call! { ($(#[$about])* $name $function) ($($parameters)*) () () () })*
    };
}

calls! {
    check = ysh_check(table: &[u8], nodes: &mut u64, rows: &mut u64,);
    depth = ysh_depth(table: &[u8], lookback: u64, rows: &mut u64, bytes: &mut u64,);
    silent = ysh_silent(table: &[u8], rows: u64, list: &mut [u64], count: &mut u64,);
    translate = ysh_translate(table: &[u8], tree: u64, room: &mut [u8], used: &mut u64,);
    fresh = ysh_fresh(settings: &[u64], state: &mut [u64],);
    step = ysh_step(
        settings: &[u64], state: &mut [u64], bar: &[u64], rows: &mut [u64], equity: &mut [u64], trades: &mut [u64], steps: [&[u8]; 4],
    );
    /// As `step`, with many bars in the place of one: how many were done.
    steps = ysh_steps(
        settings: &[u64], state: &mut [u64], bars: &[u64], rows: &mut [u64], equity: &mut [u64], trades: &mut [u64], steps: [&[u8]; 4],
        done: &mut u64,
    );
    /// Four accounts over bars of one stream: how many it took.
    accounts = ysh_accounts(stream: &mut [u64], bars: &[u64], done: &mut u64, a: Account, b: Account, c: Account, d: Account,);
    finish = ysh_finish(
        settings: &[u64], state: &mut [u64], rows: &[u64], equity: &mut [u64], trades: &mut [u64], metrics: &mut [u64],
    );
    rule = ysh_rule(table: &[u8], tree: u64, rows: &[u64], at: PositionWords, answer: &mut u64,);
    why = ysh_why(table: &[u8], tree: u64, rows: &[u64], at: PositionWords, lines: &mut [u64], count: &mut u64,);
    why_over = ysh_why_over(
        table: &[u8], tree: u64, rows: &[u64], positions: &[u64], lines: &mut [u64], counts: &mut [u64],
    );
    run = ysh_run(
        steps: &[u8], rows: &[u64], slots: u64, depth: u64, at: PositionWords, answer: &mut u64, visits: &mut u64,
    );
    metrics = ysh_metrics(initial: u64, equity: &[u64], trades: &[u64], metrics: &mut [u64],);
    compare = ysh_compare(
        equity: &[u64], trades: &[u64], other_equity: &[u64], other_trades: &[u64], lines: &mut [u64], count: &mut u64,
    );
    totals = ysh_totals(totals: &mut [u64], trades: &[u64],);
    totals_join = ysh_totals_join(totals: &mut [u64], other: &[u64],);
    root = ysh_root(word: u64,);
    version = ysh_version();
    dump_bytes = ysh_dump_bytes(slots: u64, depth: u64,);
    dump = ysh_dump(settings: &[u64], state: &[u64], rows: &[u64], area: &mut [u8], from: u64, upto: u64,);
    dump_part = ysh_dump_part(settings: &[u64], state: &[u64], rows: &[u64], at: u64, part: &mut [u8], used: &mut u64,);
    restore = ysh_restore(settings: &[u64], state: &mut [u64], image: &[u8], rows: &mut [u64],);
    append = ysh_append(held: &mut u64, close: u64, closes: &mut [u64], blocks: &mut [u64],);
    stretch = ysh_stretch(
        held: u64, first: u64, last: u64, closes: &[u64], blocks: &[u64],
        high: &mut u64, high_bar: &mut u64, low: &mut u64, low_bar: &mut u64,
    );
}
