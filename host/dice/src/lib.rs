//! Repeatable chance: a seed gives the same numbers everywhere. Every test and comparison that throws dice throws these, and the stored lists of
//! `compare/vectors`, their seeds and every figure that names a seed are of this stream: it may not change.
#![forbid(unsafe_code)]

/// SplitMix64, from a seed.
#[derive(Clone, Debug)]
pub struct Dice(pub u64);

/// A whole number that is not below 0.
pub trait Whole: Copy + PartialOrd {
    fn wide(self) -> u64;
    fn narrow(wide: u64) -> Self;
}

macro_rules! whole {
    ($($type:ty)*) => {
        $(impl Whole for $type {
            fn wide(self) -> u64 {
                self as u64
            }

            fn narrow(wide: u64) -> Self {
                wide as Self
            }
        })*
    };
}

// `i32` is what a number is that nothing says the type of
whole! { u64 usize i32 }

impl Dice {
    pub fn bits(&mut self) -> u64 {
        self.0 = self.0.wrapping_add(0x9e37_79b9_7f4a_7c15);
        let x = (self.0 ^ self.0 >> 30).wrapping_mul(0xbf58_476d_1ce4_e5b9);
        let x = (x ^ x >> 27).wrapping_mul(0x94d0_49bb_1331_11eb);
        x ^ x >> 31
    }

    /// 0 to `n` - 1.
    pub fn below<N: Whole>(&mut self, n: N) -> N {
        N::narrow(self.bits() % n.wide())
    }

    pub fn percent<N: Whole>(&mut self, chance: N) -> bool {
        self.below(N::narrow(100)) < chance
    }

    pub fn pick<T: Clone>(&mut self, from: &[T]) -> T {
        from[self.below(from.len())].clone()
    }
}

#[cfg(test)]
mod tests {
    use super::*;

    /// The first numbers of seed 0, as SplitMix64 is published with them.
    #[test]
    fn the_stream_is_the_published_one() {
        let mut dice = Dice(0);
        let first = [0xe220_a839_7b1d_cdaf, 0x6e78_9e6a_a1b9_65f4, 0x06c4_5d18_8009_454f];
        assert_eq!([dice.bits(), dice.bits(), dice.bits()], first);
    }
}
