//! Numbers that follow from a seed.

/// A fraction of the numbers that follow from a seed (the linear congruence of Knuth's MMIX).
pub(crate) struct Dice(pub(crate) u64);

impl Dice {
    /// One of the numbers below `count`, which is no more than 2^16.
    pub(crate) fn below(&mut self, count: u64) -> u64 {
        self.0 = self
            .0
            .wrapping_mul(6_364_136_223_846_793_005)
            .wrapping_add(1_442_695_040_888_963_407);
        let high = self.0 >> 48;
        match high.checked_rem(count) {
            Some(number) => number,
            None => 0,
        }
    }
}
