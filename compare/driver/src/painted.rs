//! A stack of its own for each call of the library, painted before it: how far down a call wrote.
//!
//! A call's words are all of one size, so one way to call serves them all: those that do not fit into registers are laid on top of the painted
//! stack, and what counts is below them.

use std::arch::asm;
use std::cell::RefCell;
use std::collections::BTreeMap;

const WORDS: usize = 16 * 1_024;
const PAINT: u64 = 0xc3a5_5a3c_96e1_1e69;

/// Words that a call takes in registers.
#[cfg(target_arch = "aarch64")]
const IN_REGISTERS: usize = 8;
#[cfg(target_arch = "x86_64")]
const IN_REGISTERS: usize = 6;

/// How often a call was made, and the most bytes of stack that it took.
#[derive(Debug, Clone, Copy, Default)]
pub struct Use {
    pub calls: u64,
    pub bytes: usize,
}

struct Painted {
    stack: *mut u64,
    uses: BTreeMap<&'static str, Use>,
}

thread_local! {
    static PAINTED: RefCell<Painted> = RefCell::new(Painted::new());
}

impl Painted {
    fn new() -> Self {
        // a stack pointer lies on 16 bytes
        let stack = Box::leak(vec![0u128; WORDS / 2].into_boxed_slice())
            .as_mut_ptr()
            .cast::<u64>();
        (0..WORDS).for_each(|i| unsafe { stack.add(i).write(PAINT) });
        Self {
            stack,
            uses: BTreeMap::new(),
        }
    }

    unsafe fn call(&mut self, name: &'static str, function: *const (), words: &[u64]) -> u64 {
        let over = words.get(IN_REGISTERS..).unwrap_or_default();
        let begin = WORDS - over.len().next_multiple_of(2);
        for (i, &word) in over.iter().enumerate() {
            self.stack.add(begin + i).write(word);
        }
        let mut first = [0; IN_REGISTERS];
        first
            .iter_mut()
            .zip(words)
            .for_each(|(register, &word)| *register = word);
        let answer = call_on(self.stack.add(begin), function, first);
        let lowest = (0..begin).find(|&i| self.stack.add(i).read() != PAINT).unwrap_or(begin);
        assert!(lowest > 0, "a stack that is large enough");
        (lowest..WORDS).for_each(|i| self.stack.add(i).write(PAINT));
        let used = self.uses.entry(name).or_default();
        used.calls += 1;
        used.bytes = used.bytes.max(8 * (begin - lowest));
        answer
    }
}

/// Calls the function with its first words in registers, on a stack that ends at `top`.
#[cfg(target_arch = "aarch64")]
unsafe fn call_on(top: *mut u64, function: *const (), first: [u64; IN_REGISTERS]) -> u64 {
    let answer;
    asm!(
        "mov x20, sp",
        "mov sp, {top}",
        "blr {function}",
        "mov sp, x20",
        top = in(reg) top,
        function = in(reg) function,
        out("x20") _,
        inlateout("x0") first[0] => answer,
        in("x1") first[1],
        in("x2") first[2],
        in("x3") first[3],
        in("x4") first[4],
        in("x5") first[5],
        in("x6") first[6],
        in("x7") first[7],
        clobber_abi("C"),
    );
    answer
}

#[cfg(target_arch = "x86_64")]
unsafe fn call_on(top: *mut u64, function: *const (), first: [u64; IN_REGISTERS]) -> u64 {
    let answer;
    asm!(
        "mov r12, rsp",
        "mov rsp, {top}",
        "call {function}",
        "mov rsp, r12",
        top = in(reg) top,
        function = in(reg) function,
        out("r12") _,
        in("rdi") first[0],
        in("rsi") first[1],
        in("rdx") first[2],
        in("rcx") first[3],
        in("r8") first[4],
        in("r9") first[5],
        lateout("rax") answer,
        clobber_abi("C"),
    );
    answer
}

/// Calls a function of the library with its words, and keeps how much stack it took.
pub unsafe fn call(name: &'static str, function: *const (), words: &[u64]) -> u64 {
    PAINTED.with_borrow_mut(|painted| painted.call(name, function, words))
}

/// What each call took at most so far.
pub fn uses() -> BTreeMap<&'static str, Use> {
    PAINTED.with_borrow(|painted| painted.uses.clone())
}
