//! The 16 bytes of a step, and refusal 15: which lists of steps are well formed.

/// A step's fields, laid out as a node's.
#[derive(Debug, Clone, Copy)]
pub struct Step {
    pub kind: u8,
    pub selector: u8,
    pub skip: u16,
    pub n: u32,
    pub constant: u64,
}

pub const STEP: usize = 16;
const MOST_STEPS: usize = 1_024;

pub fn steps(list: &[u8]) -> impl Iterator<Item = Step> + '_ {
    list.chunks_exact(STEP).map(|bytes| Step {
        kind: bytes[0],
        selector: bytes[1],
        skip: u16::from_le_bytes([bytes[2], bytes[3]]),
        n: u32::from_le_bytes([bytes[4], bytes[5], bytes[6], bytes[7]]),
        constant: u64::from_le_bytes(bytes[8..].try_into().expect("eight bytes")),
    })
}

impl Step {
    /// Highest or Lowest, over a price (9, 10) or a slot (11, 12).
    fn is_extreme(&self) -> bool {
        matches!(self.kind, 9..=12)
    }

    /// How many visits it counts.
    pub fn weight(&self) -> u64 {
        if self.is_extreme() {
            self.skip.into()
        } else {
            1
        }
    }

    /// Known kinds: 1 to 3 values, 5 to 8 arithmetic, 9 to 12 Highest and Lowest over a price and over a slot, 16 to 24 tests, 27 to 29 the
    /// answer set to yes, to no, turned, 30 and 31 the position, 32 and 33 jumps at a no and at a yes. `after` steps stand after this one.
    fn is_right(&self, after: usize, slots: u64, depth: u64) -> bool {
        let extreme = self.is_extreme();
        let looks_back = extreme || matches!(self.kind, 1..=3);
        let selector = extreme || matches!(self.kind, 2 | 3 | 30 | 31);
        let n = looks_back || self.kind == 31;
        let jumps = matches!(self.kind, 32 | 33);
        matches!(self.kind, 1..=3 | 5..=12 | 16..=24 | 27..=33)
            && (selector || self.selector == 0)
            && (jumps || extreme || self.skip == 0)
            && (n || self.n == 0)
            && (self.kind == 1 || self.constant == 0)
            && (!looks_back || u64::from(self.n) < depth)
            && (!matches!(self.kind, 2 | 11 | 12) || u64::from(self.selector) < slots)
            && (!extreme || (1..=u64::from(self.n) + 1).contains(&self.skip.into()))
            && (!jumps || usize::from(self.skip) <= after)
    }
}

/// The lowest bad step of a list; 0 for a bad length.
pub fn ill_formed(list: &[u8], slots: u64, depth: u64) -> Option<u64> {
    let count = list.len() / STEP;
    if !list.len().is_multiple_of(STEP) || count > MOST_STEPS {
        return Some(0);
    }
    let bad = steps(list)
        .enumerate()
        .find(|(i, step)| !step.is_right(count - 1 - i, slots, depth));
    bad.map(|(i, _)| i as u64)
}
